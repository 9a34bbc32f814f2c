/* Refuses memory to the library, one call at a time, and checks that it frees all that it allocates. Linked with --wrap, so that malloc,
 * calloc, realloc and free of the library and its header come here: in the first round the first call for memory is refused, in the second
 * the second one, until a round makes fewer calls. In each, bpfhost_new returns ERR_NO_MEMORY and makes no host, or each reply is that of a
 * round without refusals, or a new map or a load has the status -12; bpfhost_memory_refused reports the tenant that got the -12, and no
 * other. A save returns ERR_NO_MEMORY, and has the bytes of that round if it is repeated.
 * Then many hosts are made and freed. usage: refused_memory [HOSTS] */
#include "common.h"
#include <string.h>

void *__real_malloc(size_t size);
void *__real_realloc(void *block, size_t size);
void __real_free(void *block);

static long calls, refused, blocks;

/* A list that grows requests more than it needs, and if that is refused, only what it needs. Both are one growth. */
static bool is_last;
static void *last_block;
static size_t last_size;

static bool refuses(void *block, size_t size)
{
    bool goes_on = is_last && block == last_block && size <= last_size;
    is_last = goes_on || ++calls == refused;
    last_block = block;
    last_size = size;
    return is_last;
}

void *__wrap_malloc(size_t size)
{
    void *block = refuses(NULL, size) ? NULL : __real_malloc(size);
    blocks += block != NULL;
    return block;
}

/* The header's, for the handle of a host. */
void *__wrap_calloc(size_t count, size_t size)
{
    void *block = __wrap_malloc(count * size);
    return block == NULL ? NULL : memset(block, 0, count * size);
}

void *__wrap_realloc(void *block, size_t size)
{
    void *moved = refuses(block, size) ? NULL : __real_realloc(block, size);
    blocks += block == NULL && moved != NULL;
    return moved;
}

void __wrap_free(void *block)
{
    is_last = false;
    blocks -= block != NULL;
    __real_free(block);
}

#define STEPS 49
#define SAVED 48 /* a save before the descriptors are closed */
#define TENANTS 2

/* Adds a new key to the hash map of descriptor 5, and returns the result of the update. */
static const uint8_t puts_key[11 * 8] = {
    0x7a, 0x0a, 0xf0, 0xff, 0x07, 0x00, 0x00, 0x00, /* *(u64 *)(r10 - 16) = 7 */
    0x61, 0x16, 0x08, 0x00, 0x00, 0x00, 0x00, 0x00, /* r6 = *(u32 *)(r1 + 8) */
    0x63, 0x6a, 0xfc, 0xff, 0x00, 0x00, 0x00, 0x00, /* *(u32 *)(r10 - 4) = r6 */
    0x18, 0x11, 0x00, 0x00, 0x05, 0x00, 0x00, 0x00, /* r1 = map_fd 5 ll */
    0x00, 0x00, 0x00, 0x00, 0x00, 0x00, 0x00, 0x00,
    0xbf, 0xa2, 0x00, 0x00, 0x00, 0x00, 0x00, 0x00, /* r2 = r10 */
    0x07, 0x02, 0x00, 0x00, 0xfc, 0xff, 0xff, 0xff, /* r2 += -4 */
    0xbf, 0xa3, 0x00, 0x00, 0x00, 0x00, 0x00, 0x00, /* r3 = r10 */
    0x07, 0x03, 0x00, 0x00, 0xf0, 0xff, 0xff, 0xff, /* r3 += -16 */
    0xb7, 0x04, 0x00, 0x00, 0x00, 0x00, 0x00, 0x00, /* r4 = 0 */
    0x85, 0x00, 0x00, 0x00, 0x02, 0x00, 0x00, 0x00, /* call 2 */
};
static const uint8_t exits[8] = {0x95};

/* The frame of a step for a tenant: maps of both kinds, both programs, keys by command and by program, and all closed again. */
static size_t frame_of(int step, uint16_t tenant, uint8_t *f, size_t room)
{
    uint8_t slots[sizeof puts_key + sizeof exits], value[8] = {1};
    uint32_t key = (uint32_t)step;
    bpfhost_context context = {0, (uint32_t)step, 0, 0, 0, 0, 0, 0, 0, 0};
    memcpy(slots, puts_key, sizeof puts_key);
    memcpy(slots + sizeof puts_key, exits, sizeof exits);
    if (step == 0)
        return bpfhost_frame_map_create(f, room, tenant, BPFHOST_ARRAY, 4, 8, 1, 0);
    if (step == 1)
        return bpfhost_frame_prog_load(f, room, tenant, BPFHOST_SOCKET_FILTER, counts, sizeof counts / 8);
    if (step == 2)
        return bpfhost_frame_map_create(f, room, tenant, BPFHOST_HASH, 4, 8, 64, 0);
    if (step == 3)
        return bpfhost_frame_prog_load(f, room, tenant, BPFHOST_SOCKET_FILTER, slots, sizeof slots / 8);
    if (step < 20)
        return bpfhost_frame_map_update(f, room, tenant, 5, BPFHOST_ANY, &key, 4, value, 8);
    if (step < 40)
        return bpfhost_frame_test_run_head(f, room, tenant, 6, &context);
    if (step < 44)
        return bpfhost_frame_test_run_head(f, room, tenant, 4, NULL);
    if (step < 48)
        return bpfhost_frame_close(f, room, tenant, (uint32_t)(3 + step % 4));
    return 0;
}

/* A step's outcome: its status, or a program's result. */
static int outcome(bpfhost *host, int step, uint16_t tenant)
{
    uint8_t f[256] = {0};
    bpfhost_reply reply = ask(host, f, frame_of(step, tenant, f, sizeof f));
    return reply.status == 0 && step >= 20 ? (int)reply.result : reply.status;
}

/* Adds the bytes of a part to a sum. */
static bool adds(void *context, const uint8_t *frames, size_t length)
{
    uint32_t *sum = (uint32_t *)context;
    for (size_t i = 0; i < length; i++)
        *sum = *sum * 31 + frames[i];
    return true;
}

/* A sum over the frames of a tenant, saved again if memory is refused. */
static int saved(bpfhost *host, uint16_t tenant)
{
    uint32_t sum = 0;
    int code = bpfhost_save(host, tenant, adds, &sum);
    if (code == BPFHOST_ERR_NO_MEMORY) {
        is_last = false;
        sum = 0;
        code = bpfhost_save(host, tenant, adds, &sum);
    }
    CHECK(code == BPFHOST_DONE);
    return (int)(sum & INT32_MAX);
}

/* A round: the outcomes of the steps, each repeated if memory is refused to it; true if the host exists. */
static bool round_of(int outcomes[STEPS][TENANTS])
{
    bpfhost *host = NULL;
    bool saw[TENANTS] = {false, false};
    int code = bpfhost_new(&host, TENANTS, &test_seed);
    if (code != BPFHOST_DONE) {
        CHECK(code == BPFHOST_ERR_NO_MEMORY && host == NULL && blocks == 0);
        return false;
    }
    for (int step = 0; step < 48; step++)
        for (uint16_t tenant = 0; tenant < TENANTS; tenant++) {
            int found;
            if (step == 44)
                outcomes[SAVED][tenant] = saved(host, tenant);
            found = outcome(host, step, tenant);
            if (found == -12) {
                bool before = true;
                CHECK(step < 4); /* new maps and loads */
                CHECK(bpfhost_memory_refused(host, tenant, &before) == BPFHOST_DONE && before);
                saw[tenant] = true;
                is_last = false;
                found = outcome(host, step, tenant);
                CHECK(found != -12);
            }
            outcomes[step][tenant] = found;
            for (uint16_t other = 0; other < TENANTS; other++) {
                bool told = !saw[other];
                CHECK(bpfhost_memory_refused(host, other, &told) == BPFHOST_DONE && told == saw[other]);
            }
        }
    bpfhost_free(host);
    CHECK(blocks == 0);
    return true;
}

int main(int argc, char **argv)
{
    static int plain[STEPS][TENANTS], found[STEPS][TENANTS];
    long hosts = argc > 1 ? atol(argv[1]) : 1000, most, without = 0, answered = 0;
    refused = 0;
    CHECK(round_of(plain));
    most = calls;
    CHECK(plain[0][0] == 3 && plain[1][0] == 4 && plain[2][1] == 5 && plain[3][1] == 6 && plain[20][0] == 0 && plain[43][1] == 4);
    for (refused = 1;; refused++) {
        calls = 0;
        is_last = false;
        if (!round_of(found))
            without++;
        else {
            CHECK(memcmp(plain, found, sizeof plain) == 0);
            answered++;
        }
        if (calls < refused)
            break;
    }
    CHECK(refused > most && without > 0 && answered > 1);
    printf("refused memory: %ld calls refused in turn, %ld while the host is made; nothing is lost\n", refused - 1, without);
    refused = 0;
    for (long i = 0; i < hosts; i++) {
        make_and_free(i % 16 == 0);
        CHECK(blocks == 0);
    }
    printf("refused memory: %ld hosts made and freed, no block is left\n", hosts);
    return 0;
}
