/* A hash map in plain C, for comparison with bpfhost's: chains in one array of entries, a ring of the entries in the order in which they
 * were added, a list of the free ones. It has the hash function of crates/seeded_hash and takes the seed from BENCH_SEED, or draws
 * it. */
#include "frames.h"
#include "seeded_hash.h"
#include <errno.h>
#include <stdio.h>
#include <stdlib.h>
#include <unistd.h>

struct entry {
    uint32_t hash;
    uint32_t chained; /* the next one of its chain, or of the free ones */
    uint32_t before, after;
};

static struct shape shape;
static struct hash_seed seed;
/* The ring begins and ends at the entry after the last one; NONE ends a chain. */
static struct entry *entries;
static uint32_t *chains, mask, free_entry, end;
static uint8_t *keys, *values;
static const uint32_t NONE = UINT32_MAX;

static void draw_seed(void)
{
    unsigned long long state, factor;
    const char *words = getenv("BENCH_SEED");
    if (words && sscanf(words, "%llx %llx", &state, &factor) == 2)
        seed = (struct hash_seed){state, factor};
    else if (getentropy(&seed, sizeof seed) != 0)
        exit(1);
}

int map_create(struct shape wanted)
{
    uint32_t chain_count = 1;
    shape = wanted;
    end = shape.max_entries;
    while (chain_count < shape.max_entries)
        chain_count *= 2;
    mask = chain_count - 1;
    chains = malloc(chain_count * sizeof *chains);
    entries = malloc((end + 1) * sizeof *entries);
    keys = malloc((size_t)end * shape.key_size);
    values = malloc((size_t)end * shape.value_size);
    if (!chains || !entries || !keys || !values)
        return -ENOMEM;
    memset(chains, 0xff, chain_count * sizeof *chains);
    for (uint32_t i = 0; i < end; i++)
        entries[i].chained = i + 1 < end ? i + 1 : NONE;
    free_entry = 0;
    entries[end].before = entries[end].after = end;
    draw_seed();
    return 3;
}

void map_close(void)
{
    free(chains);
    free(entries);
    free(keys);
    free(values);
}

static uint8_t *key_of(uint32_t entry)
{
    return keys + (size_t)entry * shape.key_size;
}

static uint8_t *value_of(uint32_t entry)
{
    return values + (size_t)entry * shape.value_size;
}

static uint32_t hash_of(const uint8_t *key)
{
    uint64_t word = 0;
    if (shape.key_size > 8)
        return table_hash(long_hash(seed, key, shape.key_size));
    memcpy(&word, key, shape.key_size);
    return table_hash(short_hash(seed, word));
}

/* The link to the entry of a key, or the link to which it would be added: it is NONE if the key is absent. */
static uint32_t *link_of(const uint8_t *key, uint32_t hash)
{
    uint32_t *link = &chains[hash & mask];
    while (*link != NONE && (entries[*link].hash != hash || memcmp(key_of(*link), key, shape.key_size) != 0))
        link = &entries[*link].chained;
    return link;
}

int map_look_up(const uint8_t *key, uint8_t *value)
{
    uint32_t found = *link_of(key, hash_of(key));
    if (found == NONE)
        return -ENOENT;
    memcpy(value, value_of(found), shape.value_size);
    return 0;
}

/* Puts an entry into the ring as the last one. */
static void put_last(uint32_t entry)
{
    uint32_t last = entries[end].before;
    entries[entry].before = last;
    entries[entry].after = end;
    entries[last].after = entries[end].before = entry;
}

int map_update(const uint8_t *key, const uint8_t *value)
{
    uint32_t hash = hash_of(key), *link = link_of(key, hash), entry = *link;
    if (entry == NONE) {
        entry = free_entry;
        if (entry == NONE)
            return -E2BIG;
        free_entry = entries[entry].chained;
        entries[entry].hash = hash;
        entries[entry].chained = NONE;
        *link = entry;
        put_last(entry);
        memcpy(key_of(entry), key, shape.key_size);
    }
    memcpy(value_of(entry), value, shape.value_size);
    return 0;
}

int map_delete(const uint8_t *key)
{
    uint32_t *link = link_of(key, hash_of(key)), entry = *link;
    if (entry == NONE)
        return -ENOENT;
    *link = entries[entry].chained;
    entries[entries[entry].before].after = entries[entry].after;
    entries[entries[entry].after].before = entries[entry].before;
    entries[entry].chained = free_entry;
    free_entry = entry;
    return 0;
}

int map_next_key(const uint8_t *key, uint8_t *next)
{
    uint32_t found = key ? *link_of(key, hash_of(key)) : NONE, entry = entries[found == NONE ? end : found].after;
    if (entry == end)
        return -ENOENT;
    memcpy(next, key_of(entry), shape.key_size);
    return 0;
}
