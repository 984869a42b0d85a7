/* A plain walk of an image at stride 4, with the parameters, answers and refusals of mft_image_lookup_4. */
#include <stddef.h>
#include <stdint.h>

enum { STRIDE = 4, SLOTS = 1 << STRIDE, NODE_WORDS = 2, PORT_LAST = 4094, NOT_IN_ORDER = 11 };

static uint32_t replied(uint32_t number, uint32_t port, uint32_t read, uint32_t *answer)
{
    answer[0] = 0;
    answer[1] = port;
    answer[2] = read;
    return number;
}

uint32_t plain_walk_4(const uint32_t *nodes, size_t node_words, const uint16_t *ports, size_t port_count, uint32_t address,
                      uint32_t *answer)
{
    uint64_t count = node_words / NODE_WORDS;
    uint64_t number = 1;
    uint32_t read = 0;
    for (uint32_t shift = 32; shift > 0;) {
        if (number > count)
            return replied(NOT_IN_ORDER, 0, read, answer);
        const uint32_t *node = nodes + (number - 1) * NODE_WORDS;
        uint32_t bitmap = node[0];
        uint64_t next = number + node[1];
        /* Of all nodes before this one. Where next is below 2, the children wrap and are more than the slots too. */
        uint64_t slots_before = (number - 1) * SLOTS, children_before = next - 2;
        read++;
        if (bitmap >> SLOTS != 0 || children_before > slots_before)
            return replied(NOT_IN_ORDER, 0, read, answer);
        shift -= STRIDE;
        uint32_t slot = address >> shift & (SLOTS - 1);
        uint32_t leaves = (uint32_t)__builtin_popcount(bitmap >> (SLOTS - slot));
        if (bitmap >> (SLOTS - 1 - slot) & 1) {
            uint64_t leaf = slots_before - children_before + leaves;
            if (leaf >= port_count || ports[leaf] > PORT_LAST)
                return replied(NOT_IN_ORDER, 0, read, answer);
            return replied(0, ports[leaf], read, answer);
        }
        number = next + (slot - leaves);
    }
    return replied(NOT_IN_ORDER, 0, read, answer);
}
