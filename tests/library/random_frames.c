/* Frames of random lengths and contents: each has one whole reply that repeats its tenant and its command, the same copied and lent,
 * and what is around them stays as it was. usage: random_frames [COUNT] */
#include "common.h"
#include <string.h>

#define TENANTS 3
#define LONGEST (BPFHOST_LONGEST_FRAME + 64)
#define AROUND 64

static uint8_t frame[LONGEST];
static uint8_t room[AROUND + BPFHOST_LONGEST_REPLY + AROUND];
static uint64_t state = 88172645463325252u;

/* A frame that is right in itself: whether its descriptor is open, and its key there, is left to chance. */
static size_t right_frame(void)
{
    uint64_t bits = random_number(&state);
    uint16_t tenant = (uint16_t)(bits % TENANTS);
    uint32_t fd = 3 + (uint32_t)(bits >> 8) % 6, key = (uint32_t)(bits >> 16) % 8;
    uint64_t value = bits;
    switch (bits >> 32 & 15) {
    case 0: return bpfhost_frame_map_create(frame, LONGEST, tenant, BPFHOST_HASH, 4, 8, 1 + key, 0);
    case 1: return bpfhost_frame_map_create(frame, LONGEST, tenant, BPFHOST_ARRAY, 4, 8, 1 + key, 0);
    case 2: return bpfhost_frame_prog_load(frame, LONGEST, tenant, BPFHOST_SOCKET_FILTER, counts, sizeof counts / 8);
    case 3: return bpfhost_frame_prog_load(frame, LONGEST, tenant, BPFHOST_SOCKET_FILTER, answers_length, 2);
    case 4: return bpfhost_frame_close(frame, LONGEST, tenant, fd);
    case 5: return bpfhost_frame_map_delete(frame, LONGEST, tenant, fd, &key, 4);
    case 6: return bpfhost_frame_map_next_key(frame, LONGEST, tenant, fd, &key, key % 2 * 4);
    case 7:
    case 8: return bpfhost_frame_map_lookup(frame, LONGEST, tenant, fd, &key, 4);
    case 9:
    case 10: return bpfhost_frame_map_update(frame, LONGEST, tenant, fd, key % 3, &key, 4, &value, 8);
    default: return bpfhost_frame_test_run_head(frame, LONGEST, tenant, fd, NULL) + bits % 1500;
    }
}

/* Short ones mostly, and some at the limits. */
static size_t some_length(void)
{
    uint64_t kind = random_number(&state) % 64;
    if (kind == 0)
        return BPFHOST_LONGEST_FRAME - 4 + random_number(&state) % 9;
    if (kind == 1)
        return random_number(&state) % LONGEST;
    return random_number(&state) % (kind < 8 ? 2048 : 64);
}

/* Bytes of which half are small, after a head that mostly has a valid tenant and command. */
static void fill(size_t length)
{
    static const uint16_t commands[] = {0, 1, 2, 3, 4, 5, 10, 256};
    size_t filled = length < 4096 ? length : 4096;
    uint64_t bits = random_number(&state);
    uint8_t head[8];
    size_t head_length = 0;
    for (size_t i = 0; i < filled; i++) {
        uint64_t it = random_number(&state);
        frame[i] = (uint8_t)(it & 1 ? it >> 8 : (it >> 8) % 5);
    }
    if (bits % 16 != 0) {
        bpfhost_put32(bpfhost_put16(bpfhost_put16(head, (uint16_t)(bits >> 8) % (TENANTS + 1)), commands[(bits >> 4) % 8]),
                      3 + (uint32_t)(bits >> 16) % 6);
        head_length = bits % 3 == 0 ? 4 : 8;
    }
    memcpy(frame, head, head_length < length ? head_length : length);
}

int main(int argc, char **argv)
{
    long count = argc > 1 ? atol(argv[1]) : 100000;
    long done[2] = {0, 0};
    bpfhost *copies = NULL, *lends = NULL;
    CHECK(bpfhost_new(&copies, TENANTS, &test_seed) == BPFHOST_DONE && bpfhost_new(&lends, TENANTS, &test_seed) == BPFHOST_DONE);
    memset(room, 0xa5, sizeof room);
    for (long i = 0; i < count; i++) {
        bool is_right = random_number(&state) % 2 == 0;
        size_t length = is_right ? right_frame() : some_length(), written = 0;
        bpfhost_bytes lent;
        bpfhost_reply reply;
        if (!is_right)
            fill(length);
        CHECK(bpfhost_handle(copies, frame, length, room + AROUND, BPFHOST_LONGEST_REPLY, &written) == BPFHOST_DONE);
        CHECK(bpfhost_handle_lent(lends, frame, length, &lent) == BPFHOST_DONE);
        CHECK(written == lent.length && memcmp(room + AROUND, lent.at, written) == 0);
        /* All are in the one buffer that bpfhost_new has seen. */
        CHECK(lent.at == bpfhost_memory_of(lends)->replies);
        CHECK(bpfhost_read_reply(lent.at, lent.length, &reply) == BPFHOST_DONE);
        CHECK(reply.tenant == (length < 4 ? 65535 : bpfhost_get16(frame)));
        CHECK(reply.command == (length < 4 ? 65535 : bpfhost_get16(frame + 2)));
        CHECK(reply.status != -14 && reply.status > -4096);
        done[reply.status >= 0]++;
        for (size_t at = 0; at < AROUND; at++)
            CHECK(room[at] == 0xa5 && room[sizeof room - 1 - at] == 0xa5);
    }
    bpfhost_free(copies);
    bpfhost_free(lends);
    CHECK(done[0] > count / 8 && done[1] > count / 8);
    printf("random frames: %ld done, %ld refused, each with its reply\n", done[1], done[0]);
    return 0;
}
