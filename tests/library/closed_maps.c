/* Counts the blocks of memory that the library takes and frees for hash maps: a CLOSE frees none, a map of the same size of keys and as many
 * entries as one that is closed takes none, and another one frees a single closed map if one leaves room. Linked with --wrap, so that malloc,
 * realloc and free of the library come here. */
#include "common.h"
#include <string.h>

void *__real_malloc(size_t size);
void *__real_realloc(void *block, size_t size);
void __real_free(void *block);

static long taken, freed;

void *__wrap_malloc(size_t size)
{
    taken++;
    return __real_malloc(size);
}

void *__wrap_realloc(void *block, size_t size)
{
    taken += block == NULL;
    return __real_realloc(block, size);
}

void __wrap_free(void *block)
{
    freed += block != NULL;
    __real_free(block);
}

/* Creates a hash map, counts the blocks that are taken and freed for it, and returns its descriptor. */
static uint32_t create(bpfhost *host, uint32_t key_size, uint32_t entries)
{
    uint8_t frame[64];
    size_t length = bpfhost_frame_map_create(frame, sizeof frame, 0, BPFHOST_HASH, key_size, 8, entries, 0);
    taken = freed = 0;
    int32_t status = ask(host, frame, length).status;
    CHECK(status >= 0);
    return (uint32_t)status;
}

static void close_all(bpfhost *host, uint32_t first, uint32_t last)
{
    uint8_t frame[64];
    taken = freed = 0;
    for (uint32_t fd = first; fd <= last; fd++)
        CHECK(ask(host, frame, bpfhost_frame_close(frame, sizeof frame, 0, fd)).status == 0);
    CHECK(taken == 0 && freed == 0);
}

int main(void)
{
    bpfhost *host = NULL;
    CHECK(bpfhost_new(&host, 1, &test_seed) == BPFHOST_DONE);
    uint32_t fd = create(host, 512, 4095);
    const long map = taken;
    CHECK(fd == 3 && map > 0 && freed == 0);
    for (fd = 4; fd <= 10; fd++)
        CHECK(create(host, 512, 4096) == fd && taken == map && freed == 0);
    CHECK(create(host, 4, 1) == 11 && taken == map && freed == 0);
    close_all(host, 3, 10);
    /* 4,096 entries are too many: the map of 4,095 does not suffice, and one of 4,096 does. Then a like one is there. */
    CHECK(create(host, 511, 4096) == 3 && taken == map && freed == map);
    CHECK(create(host, 512, 4096) == 4 && taken == 0 && freed == 0);
    close_all(host, 3, 4);
    /* One entry is too many: of those that suffice, the one of 4,095 has the least memory. */
    CHECK(create(host, 8, 1) == 3 && taken == map && freed == map);
    CHECK(create(host, 512, 4095) == 4 && taken == map && freed == map);
    bpfhost_free(host);
    return 0;
}
