/* The hash function with a seed of crates/seeded_hash, in C: what plain.c hashes with, and what colliding.c inverts by search. */
#ifndef SEEDED_HASH_H
#define SEEDED_HASH_H

#include <stddef.h>
#include <stdint.h>
#include <string.h>

struct hash_seed {
    uint64_t state, factor;
};

/* The two halves of the 128 bits of a product, joined by exclusive or. */
static inline uint64_t folded_product(uint64_t a, uint64_t b)
{
    unsigned __int128 product = (unsigned __int128)a * b;
    return (uint64_t)product ^ (uint64_t)(product >> 64);
}

/* Eight bytes, little-endian on the machines that this is for. */
static inline uint64_t word_at(const uint8_t *bytes)
{
    uint64_t word;
    memcpy(&word, bytes, sizeof word);
    return word;
}

/* The hash of a key of at most eight bytes, which is hashed as a number of eight. */
static inline uint64_t short_hash(struct hash_seed seed, uint64_t word)
{
    return folded_product(word ^ (seed.state + 8), (word << 32 | word >> 32) ^ seed.factor);
}

/* The hash of a key of more than eight bytes; of at least sixteen in the bench, so that no read begins before it. */
static inline uint64_t long_hash(struct hash_seed seed, const uint8_t *key, size_t length)
{
    uint64_t state = seed.state + length;
    size_t at = 0;
    for (; length - at > 16; at += 16)
        state = folded_product(word_at(key + at) ^ state, word_at(key + at + 8) ^ seed.factor);
    state = folded_product(word_at(key + length - 16) ^ state, word_at(key + length - 8) ^ seed.factor);
    return folded_product(state, seed.factor);
}

/* The 32 bits of a hash that an index table uses: the lowest ones are the group, the highest eight the tag. */
static inline uint32_t table_hash(uint64_t hash)
{
    return (uint32_t)(hash ^ hash >> 32);
}

#endif
