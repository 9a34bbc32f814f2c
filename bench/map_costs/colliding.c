/* Writes keys of four bytes that collide in an index table: their hashes have the same ten lowest bits, so that up to 1,024 groups
 * keep them together, and the same tag, so that each look-up compares with each of them. About one key in 2^18 does; all are tried.
 * usage: colliding COUNT STATE FACTOR   of the hash function with this seed, two words in hexadecimal digits
 *        colliding COUNT                of the kit's hash function, whose constants are fixed */
#include "seeded_hash.h"
#include <stdbool.h>
#include <stdio.h>
#include <stdlib.h>

#define GROUP_BITS 0x3ffu
#define TAG_BITS 0xff000000u

/* The kit's FoldHasher: its initial state and its multiplier, and of a number of eight bytes. */
static uint64_t kit_hash(uint64_t word)
{
    return folded_product(word ^ 0x243f6a8885a308d3, 0x9e3779b97f4a7c15 ^ 16);
}

static uint32_t hash_of(bool is_seeded, struct hash_seed seed, uint32_t key)
{
    return table_hash(is_seeded ? short_hash(seed, key) : kit_hash(key));
}

int main(int argc, char **argv)
{
    if (argc != 2 && argc != 4) {
        fprintf(stderr, "usage: colliding COUNT [STATE FACTOR]\n");
        return 2;
    }
    bool is_seeded = argc == 4;
    struct hash_seed seed = {0, 0};
    if (is_seeded)
        seed = (struct hash_seed){strtoull(argv[2], NULL, 16), strtoull(argv[3], NULL, 16)};
    unsigned long wanted = strtoul(argv[1], NULL, 10);
    uint32_t mask = GROUP_BITS | TAG_BITS, target = hash_of(is_seeded, seed, 1) & mask, key = 0;
    do {
        if ((hash_of(is_seeded, seed, key) & mask) == target && wanted) {
            fwrite(&key, sizeof key, 1, stdout);
            wanted--;
        }
    } while (wanted && ++key);
    return wanted ? 1 : 0;
}
