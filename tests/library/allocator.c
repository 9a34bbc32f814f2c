/* The library over allocators of the program: `tests/library/run` renames malloc, realloc and free in a copy of the archive (objcopy), so that it
 * calls the three functions here. They take from the arena of the thread, which the program sets around its calls: each host has its own, with
 * a limit. What a host takes is counted, and given back when it is freed; one host's limit changes nothing for the other. */
#include "common.h"
#include <string.h>

/* The bytes and the blocks that are taken, and the most bytes. */
struct arena {
    size_t taken, blocks, most;
};

/* Before each block, of a size that keeps its alignment. */
union head {
    struct {
        struct arena *arena;
        size_t size;
    } of;
    uint8_t bytes[32];
};

static _Thread_local struct arena *current;

void *embedder_malloc(size_t size);
void *embedder_realloc(void *at, size_t size);
void embedder_free(void *at);

void *embedder_malloc(size_t size)
{
    union head *head;
    CHECK(current != NULL);
    if (size > current->most - current->taken)
        return NULL;
    head = (union head *)malloc(sizeof *head + size);
    if (head == NULL)
        return NULL;
    head->of.arena = current;
    head->of.size = size;
    current->taken += size;
    current->blocks++;
    return head + 1;
}

void embedder_free(void *at)
{
    union head *head = at == NULL ? NULL : (union head *)at - 1;
    if (head == NULL)
        return;
    CHECK(head->of.arena == current);
    current->taken -= head->of.size;
    current->blocks--;
    free(head);
}

void *embedder_realloc(void *at, size_t size)
{
    size_t old = at == NULL ? 0 : ((union head *)at - 1)->of.size;
    void *moved = embedder_malloc(size);
    if (moved != NULL && old != 0)
        memcpy(moved, at, old < size ? old : size);
    if (moved != NULL)
        embedder_free(at);
    return moved;
}

static struct arena arenas[2] = {{0, 0, 40u << 20}, {0, 0, 40u << 20}};

static bpfhost *new_in(struct arena *arena)
{
    bpfhost *host = NULL;
    current = arena;
    CHECK(bpfhost_new(&host, 1, &test_seed) == BPFHOST_DONE);
    current = NULL;
    return host;
}

/* Makes maps with the longest keys until there is an error, and returns it. */
static int32_t fill(bpfhost *host, struct arena *arena)
{
    const bpfhost_map_attr attr = {BPFHOST_HASH, 512, 8, 4096, 0};
    bpfhost_result out;
    current = arena;
    do
        CHECK(bpfhost_map_create(host, 0, &attr, &out) == BPFHOST_DONE);
    while (out.status >= 0);
    current = NULL;
    return out.status;
}

int main(void)
{
    static struct arena small = {0, 0, 1000};
    bpfhost *hosts[2], *none = NULL;
    bpfhost_result out;
    size_t taken;
    bool refused = false;
    hosts[0] = new_in(&arenas[0]);
    CHECK(arenas[0].taken > 200000 && arenas[0].blocks > 0 && arenas[1].taken == 0);
    hosts[1] = new_in(&arenas[1]);
    taken = arenas[1].taken;
    CHECK(taken == arenas[0].taken);
    /* The first host comes to its limit: only its tenant gets an error, and it goes on. */
    CHECK(fill(hosts[0], &arenas[0]) == -12 && arenas[1].taken == taken);
    current = &arenas[0];
    CHECK(bpfhost_memory_refused(hosts[0], 0, &refused) == BPFHOST_DONE && refused);
    CHECK(bpfhost_close_all(hosts[0], 0, &out) == BPFHOST_DONE && out.result == 3);
    current = &arenas[1];
    CHECK(bpfhost_memory_refused(hosts[1], 0, &refused) == BPFHOST_DONE && !refused);
    open_counter(hosts[1], 0);
    CHECK(count_once(hosts[1], 0) == 1);
    bpfhost_free(hosts[1]);
    current = &arenas[0];
    bpfhost_free(hosts[0]);
    CHECK(arenas[0].taken == 0 && arenas[0].blocks == 0 && arenas[1].taken == 0 && arenas[1].blocks == 0);
    /* There is no host in an arena that is too small, and nothing is left in it. */
    current = &small;
    CHECK(bpfhost_new(&none, 1, &test_seed) == BPFHOST_ERR_NO_MEMORY && none == NULL && small.blocks == 0);
    printf("allocator: two hosts in arenas of their own, of which each takes %zu bytes at first\n", taken);
    return 0;
}
