/* How long it takes to save a tenant and to restore it on another host, by the library for C. README.md says what is printed. */
#define _GNU_SOURCE
#include <bpfhost.h>
#include <stdio.h>
#include <stdlib.h>
#include <time.h>

#define MAPS 16
#define VALUE_SIZE 8
#define LARGEST_KEY 512
#define ROUNDS 15

/* A tenant: how many maps, their entries, and the size of their keys. */
struct tenant {
    const char *name;
    uint32_t maps, entries, key_size;
};

/* What a save gives: the frames of all parts, and how long the longest part took. */
struct saved {
    uint8_t *bytes;
    size_t length, room, parts, longest;
    double began, slowest;
};

static void must(bool holds, const char *what)
{
    if (holds)
        return;
    fprintf(stderr, "saves: %s\n", what);
    exit(1);
}

/* In ms. */
static double now(void)
{
    struct timespec t;
    clock_gettime(CLOCK_MONOTONIC, &t);
    return (double)t.tv_sec * 1e3 + (double)t.tv_nsec * 1e-6;
}

static bpfhost *new_host(void)
{
    bpfhost *host = NULL;
    must(bpfhost_new(&host, 1, &(bpfhost_seed){{0x0123456789abcdef, 0xfedcba9876543210}}) == BPFHOST_DONE, "no host");
    return host;
}

static void tell(bpfhost *host, const uint8_t *frame, size_t length)
{
    bpfhost_reply reply;
    must(bpfhost_ask(host, frame, length, &reply) == BPFHOST_DONE && reply.status >= 0, "a frame is refused");
}

/* Fills a map with keys that differ in their first four bytes. */
static void fill(bpfhost *host, const struct tenant *it, uint32_t fd)
{
    uint8_t frame[16 + LARGEST_KEY + VALUE_SIZE], key[LARGEST_KEY] = {0}, value[VALUE_SIZE] = {1};
    for (uint32_t i = 0; i < it->entries; i++) {
        bpfhost_put32(key, i);
        tell(host, frame, bpfhost_frame_map_update(frame, sizeof frame, 0, fd, BPFHOST_ANY, key, it->key_size, value, sizeof value));
    }
}

static bpfhost *filled(const struct tenant *it)
{
    bpfhost *host = new_host();
    uint8_t frame[24];
    for (uint32_t map = 0; map < it->maps; map++) {
        tell(host, frame, bpfhost_frame_map_create(frame, sizeof frame, 0, BPFHOST_HASH, it->key_size, VALUE_SIZE, it->entries, 0));
        fill(host, it, 3 + map);
    }
    return host;
}

static bool keeps(void *context, const uint8_t *frames, size_t length)
{
    struct saved *it = (struct saved *)context;
    double took = now() - it->began;
    it->slowest = took > it->slowest ? took : it->slowest;
    it->longest = length > it->longest ? length : it->longest;
    if (it->room < it->length + length) {
        it->room = 2 * (it->length + length);
        must((it->bytes = (uint8_t *)realloc(it->bytes, it->room)) != NULL, "no memory");
    }
    memcpy(it->bytes + it->length, frames, length);
    it->length += length;
    it->parts++;
    it->began = now();
    return true;
}

/* Times both in turn: the least of the rounds, so that others on the machine count little. */
static void measure(const struct tenant *it)
{
    bpfhost *host = filled(it);
    struct saved saved = {NULL, 0, 0, 0, 0, 0, 0};
    double save = 1e9, restore = 1e9, slowest = 1e9;
    for (int round = 0; round < ROUNDS; round++) {
        bpfhost *other = new_host();
        double begin = now(), between;
        int32_t status;
        saved.length = saved.parts = 0;
        saved.slowest = 0;
        saved.began = begin;
        must(bpfhost_save(host, 0, keeps, &saved) == BPFHOST_DONE, "no save");
        between = now();
        must(bpfhost_restore(other, 0, saved.bytes, saved.length, &status) == BPFHOST_DONE, "no restore");
        save = between - begin < save ? between - begin : save;
        restore = now() - between < restore ? now() - between : restore;
        slowest = saved.slowest < slowest ? saved.slowest : slowest;
        bpfhost_free(other);
    }
    printf("%-28s%8zu%14zu%14zu%10.2f%10.2f%14.2f%11.2f\n", it->name, saved.parts, saved.length, saved.longest, save, restore, slowest,
           save / restore);
    free(saved.bytes);
    bpfhost_free(host);
}

int main(void)
{
    static const struct tenant tenants[] = {
        {"nothing open", 0, 0, 4},
        {"one map, keys of 4", 1, 4096, 4},
        {"16 full maps, keys of 4", MAPS, 2048, 4},
        {"16 full maps, keys of 64", MAPS, 2048, 64},
        {"one map, keys of 512", 1, 4096, LARGEST_KEY},
        {"16 full maps, keys of 512", MAPS, 2048, LARGEST_KEY},
    };
    printf("%-28s%8s%14s%14s%10s%10s%14s%11s\n", "", "parts", "bytes", "longest part", "save, ms", "restore", "slowest part", "save to it");
    for (size_t i = 0; i < sizeof tenants / sizeof tenants[0]; i++)
        measure(&tenants[i]);
    return 0;
}
