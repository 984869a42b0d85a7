/* Segment tables as one would write them by hand: a build that takes its list to be valid and its stores to be long enough, a lookup
 * with the parameters, answers and refusals of mft_segments_lookup, and the same lookup without a check, for tables that were built. */
#include <stddef.h>
#include <stdint.h>
#include <string.h>

enum {
    FIRST_ENTRIES = 65536,
    CODEWORDS = 32,
    KEPT_LAST = 64,
    PACKED_WORDS = CODEWORDS + KEPT_LAST,
    OCTET_ENTRIES = 256,
    POINTER = 32768,
    PLAIN_POINTER = 49152,
    PORT_LAST = 4094,
    NOT_IN_ORDER = 11,
    ROUTE_WORDS = 3
};

static void fill(uint16_t *entries, uint32_t from, uint32_t count, uint16_t port)
{
    for (uint32_t i = from; i < from + count; i++)
        entries[i] = port;
}

/* Writes the packed block and gives its ones; of more than KEPT_LAST the block is no use. */
static uint32_t pack(const uint16_t *entries, uint16_t *block)
{
    uint32_t ones = 0, before = entries[0] + 1u;
    for (uint32_t w = 0; w < CODEWORDS; w++) {
        uint32_t bits = 0, base = ones;
        for (uint32_t i = 8 * w; i < 8 * w + 8; i++) {
            uint32_t bit = entries[i] != before;
            before = entries[i];
            bits = bits << 1 | bit;
            if (bit) {
                if (ones == KEPT_LAST)
                    return KEPT_LAST + 1;
                block[CODEWORDS + ones++] = (uint16_t)before;
            }
        }
        block[w] = (uint16_t)(bits << 8 | base);
    }
    memset(block + CODEWORDS + ones, 0, (KEPT_LAST - ones) * sizeof *block);
    return ones;
}

/* One pass in list order. A shorter route comes before the longer ones that begin with it, so each is written over what its entries
 * have so far; once an entry is a pointer, no route comes that would be written over it. */
void plain_segments_build(const uint32_t *list, size_t list_words, uint16_t *first, uint16_t *packed, uint16_t *plain, uint16_t *last,
                          uint32_t *blocks)
{
    uint32_t packed_count = 0, plain_count = 0, last_count = 0;
    uint16_t entries[OCTET_ENTRIES], block[PACKED_WORDS];
    memset(first, 0, FIRST_ENTRIES * sizeof *first);
    for (size_t at = 0; at < list_words;) {
        uint32_t value = list[at], length = list[at + 1];
        uint32_t segment = value >> 16;
        if (length <= 16) {
            fill(first, segment, 1u << (16 - length), (uint16_t)list[at + 2]);
            at += ROUTE_WORDS;
            continue;
        }
        fill(entries, 0, OCTET_ENTRIES, first[segment]);
        /* Of one octet the routes of more than 24 bits stand together, so the last block that was begun is theirs. */
        for (uint32_t open = OCTET_ENTRIES; at < list_words && list[at] >> 16 == segment; at += ROUTE_WORDS) {
            uint32_t third = list[at] >> 8 & 255, fourth = list[at] & 255;
            uint16_t port = (uint16_t)list[at + 2];
            length = list[at + 1];
            if (length <= 24) {
                fill(entries, third, 1u << (24 - length), port);
                continue;
            }
            if (third != open) {
                fill(last, last_count * OCTET_ENTRIES, OCTET_ENTRIES, entries[third]);
                entries[third] = (uint16_t)(POINTER + last_count++);
                open = third;
            }
            fill(last + (last_count - 1) * OCTET_ENTRIES, fourth, 1u << (32 - length), port);
        }
        if (pack(entries, block) <= KEPT_LAST) {
            memcpy(packed + packed_count * PACKED_WORDS, block, sizeof block);
            first[segment] = (uint16_t)(POINTER + packed_count++);
        } else {
            memcpy(plain + plain_count * OCTET_ENTRIES, entries, sizeof entries);
            first[segment] = (uint16_t)(PLAIN_POINTER + plain_count++);
        }
    }
    blocks[0] = packed_count;
    blocks[1] = plain_count;
    blocks[2] = last_count;
}

static uint32_t replied(uint32_t number, uint32_t port, uint32_t reads, uint32_t *answer)
{
    answer[0] = 0;
    answer[1] = port;
    answer[2] = reads;
    return number;
}

static uint32_t replied_port(int checked, uint32_t entry, uint32_t reads, uint32_t *answer)
{
    return checked && entry > PORT_LAST ? replied(NOT_IN_ORDER, 0, reads, answer) : replied(0, entry, reads, answer);
}

/* Both lookups: `checked` is a constant wherever this is inlined, so that where it is 0 no test of it is left. */
static inline __attribute__((always_inline)) uint32_t
lookup(int checked, const uint16_t *first, size_t first_count, const uint16_t *packed, size_t packed_count, const uint16_t *plain,
       size_t plain_count, const uint16_t *last, size_t last_count, uint32_t address, uint32_t *answer)
{
    if (checked && first_count < FIRST_ENTRIES)
        return replied(NOT_IN_ORDER, 0, 0, answer);
    uint32_t third = address >> 8 & 255, reads;
    uint32_t entry = first[address >> 16];
    if (entry < POINTER)
        return replied_port(checked, entry, 1, answer);
    if (entry < PLAIN_POINTER) {
        size_t from = (size_t)(entry - POINTER) * PACKED_WORDS;
        if (checked && from + PACKED_WORDS > packed_count)
            return replied(NOT_IN_ORDER, 0, 1, answer);
        const uint16_t *block = packed + from;
        uint32_t codeword = block[third / 8];
        /* Where the index would be -1 it wraps, and is above 63 too. */
        uint32_t index = (codeword & 255) + (uint32_t)__builtin_popcount(codeword >> (15 - third % 8)) - 1;
        if (checked && index >= KEPT_LAST)
            return replied(NOT_IN_ORDER, 0, 2, answer);
        entry = block[CODEWORDS + index];
        reads = 3;
    } else {
        size_t from = (size_t)(entry - PLAIN_POINTER) * OCTET_ENTRIES;
        if (checked && from + OCTET_ENTRIES > plain_count)
            return replied(NOT_IN_ORDER, 0, 1, answer);
        entry = plain[from + third];
        reads = 2;
    }
    if (entry < POINTER)
        return replied_port(checked, entry, reads, answer);
    size_t from = (size_t)(entry - POINTER) * OCTET_ENTRIES;
    if (checked && from + OCTET_ENTRIES > last_count)
        return replied(NOT_IN_ORDER, 0, reads, answer);
    return replied_port(checked, last[from + (address & 255)], reads + 1, answer);
}

uint32_t plain_segments_lookup(const uint16_t *first, size_t first_count, const uint16_t *packed, size_t packed_count,
                               const uint16_t *plain, size_t plain_count, const uint16_t *last, size_t last_count, uint32_t address,
                               uint32_t *answer)
{
    return lookup(1, first, first_count, packed, packed_count, plain, plain_count, last, last_count, address, answer);
}

uint32_t plain_segments_lookup_unchecked(const uint16_t *first, size_t first_count, const uint16_t *packed, size_t packed_count,
                                         const uint16_t *plain, size_t plain_count, const uint16_t *last, size_t last_count,
                                         uint32_t address, uint32_t *answer)
{
    return lookup(0, first, first_count, packed, packed_count, plain, plain_count, last, last_count, address, answer);
}
