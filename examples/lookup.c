/* Reads a route file, builds its image at stride 4, and prints the port of each address given:
 *
 *     lookup examples/floor.routes 10.1.2.3 11.0.0.0
 *
 * Compiled with what `pkg-config --cflags --libs maftehon` says. All memory is the caller's: here it is as much as the largest file and
 * image need, so that no call is refused for room. */
#include <arpa/inet.h>
#include <maftehon.h>
#include <stdio.h>
#include <stdlib.h>

enum {
    ROUTES_LAST = 4096,
    FILE_LAST = 5 + 7 * ROUTES_LAST,
    LIST_WORDS = 3 * ROUTES_LAST,
    /* At stride 4 a route adds at most seven nodes to the root, and a node has at most sixteen leaves. */
    NODES_LAST = 1 + 7 * ROUTES_LAST,
    PORTS_LAST = 16 * NODES_LAST
};

static uint8_t file[FILE_LAST + 1];
static uint32_t list[LIST_WORDS];
static uint32_t nodes[2 * NODES_LAST];
static uint16_t ports[PORTS_LAST];

/* Says which call was refused, and ends. */
static void refused(const char *what, uint32_t number, uint32_t place)
{
    fprintf(stderr, "lookup: %s: refused %u at %u\n", what, (unsigned)number, (unsigned)place);
    exit(1);
}

int main(int count, char **words)
{
    if (count < 2) {
        fprintf(stderr, "usage: lookup FILE ADDRESS...\n");
        return 2;
    }
    FILE *source = fopen(words[1], "rb");
    if (source == NULL) {
        perror(words[1]);
        return 2;
    }
    /* One byte more than a file may have: what is longer is refused, and not cut. */
    size_t bytes = fread(file, 1, sizeof file, source);
    fclose(source);

    uint32_t answer[3];
    uint32_t number = mft_file_read(file, bytes, list, LIST_WORDS, answer);
    if (number != MFT_DONE)
        refused(words[1], number, answer[0]);
    size_t list_words = 3 * (size_t)answer[1];

    number = mft_image_build(4, list, list_words, nodes, sizeof nodes / sizeof *nodes, ports, PORTS_LAST, answer);
    if (number != MFT_DONE)
        refused("image", number, answer[0]);
    size_t node_words = 2 * (size_t)answer[1], port_count = answer[2];

    for (int i = 2; i < count; i++) {
        struct in_addr address;
        if (inet_pton(AF_INET, words[i], &address) != 1) {
            fprintf(stderr, "lookup: %s is no address\n", words[i]);
            return 2;
        }
        number = mft_image_lookup_4(nodes, node_words, ports, port_count, ntohl(address.s_addr), answer);
        if (number != MFT_DONE)
            refused("lookup", number, answer[0]);
        printf("%s %u\n", words[i], (unsigned)answer[1]);
    }
    return 0;
}
