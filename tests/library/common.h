/* What the tests share: a check that prints its line, pseudo-random numbers, a seed, and two programs. */
#ifndef COMMON_H
#define COMMON_H

#include <bpfhost.h>
#include <stdio.h>
#include <stdlib.h>

#define CHECK(holds)                                                                   \
    do {                                                                               \
        if (!(holds)) {                                                                \
            fprintf(stderr, "%s:%d: it does not hold: %s\n", __FILE__, __LINE__, #holds); \
            exit(1);                                                                   \
        }                                                                              \
    } while (0)

/* Numbers that are the same in each run (xorshift). */
static inline uint64_t random_number(uint64_t *state)
{
    *state ^= *state << 13;
    *state ^= *state >> 7;
    *state ^= *state << 17;
    return *state;
}

/* The seed of each host: the same in each run. */
static const bpfhost_seed test_seed = {{0x0123456789abcdef, 0xfedcba9876543210}};

/* r0 = the packet's length; exit */
static const uint8_t answers_length[16] = {0x61, 0x10, 0, 0, 0, 0, 0, 0, 0x95};

/* Adds one to the value at index 0 of the array of descriptor 3, and returns it. */
static const uint8_t counts[13 * 8] = {
    0x62, 0x0a, 0xfc, 0xff, 0x00, 0x00, 0x00, 0x00, /* *(u32 *)(r10 - 4) = 0 */
    0x18, 0x11, 0x00, 0x00, 0x03, 0x00, 0x00, 0x00, /* r1 = map_fd 3 ll */
    0x00, 0x00, 0x00, 0x00, 0x00, 0x00, 0x00, 0x00,
    0xbf, 0xa2, 0x00, 0x00, 0x00, 0x00, 0x00, 0x00, /* r2 = r10 */
    0x07, 0x02, 0x00, 0x00, 0xfc, 0xff, 0xff, 0xff, /* r2 += -4 */
    0x85, 0x00, 0x00, 0x00, 0x01, 0x00, 0x00, 0x00, /* call 1 */
    0x55, 0x00, 0x02, 0x00, 0x00, 0x00, 0x00, 0x00, /* if r0 != 0 goto there */
    0xb7, 0x00, 0x00, 0x00, 0x00, 0x00, 0x00, 0x00, /* r0 = 0 */
    0x95, 0x00, 0x00, 0x00, 0x00, 0x00, 0x00, 0x00, /* exit */
    0xb7, 0x01, 0x00, 0x00, 0x01, 0x00, 0x00, 0x00, /* there: r1 = 1 */
    0xdb, 0x10, 0x00, 0x00, 0x00, 0x00, 0x00, 0x00, /* lock *(u64 *)(r0 + 0) += r1 */
    0x79, 0x00, 0x00, 0x00, 0x00, 0x00, 0x00, 0x00, /* r0 = *(u64 *)(r0 + 0) */
    0x95, 0x00, 0x00, 0x00, 0x00, 0x00, 0x00, 0x00, /* exit */
};

/* Asks, and checks that there is a reply to this frame. */
static inline bpfhost_reply ask(bpfhost *host, const void *frame, size_t length)
{
    bpfhost_reply reply;
    CHECK(bpfhost_ask(host, frame, length, &reply) == BPFHOST_DONE);
    return reply;
}

/* A tenant's array of one count, descriptor 3, and the program that counts in it, descriptor 4. */
static inline void open_counter(bpfhost *host, uint16_t tenant)
{
    uint8_t frame[128];
    size_t length = bpfhost_frame_map_create(frame, sizeof frame, tenant, BPFHOST_ARRAY, 4, 8, 1, 0);
    CHECK(ask(host, frame, length).status == 3);
    length = bpfhost_frame_prog_load(frame, sizeof frame, tenant, BPFHOST_SOCKET_FILTER, counts, sizeof counts / 8);
    CHECK(ask(host, frame, length).status == 4);
}

/* Runs it once on an empty packet: the count. */
static inline uint32_t count_once(bpfhost *host, uint16_t tenant)
{
    uint8_t frame[BPFHOST_TEST_RUN_HEAD];
    bpfhost_reply reply = ask(host, frame, bpfhost_frame_test_run_head(frame, sizeof frame, tenant, 4, NULL));
    CHECK(reply.status == 0);
    return reply.result;
}

/* Makes a host for one tenant, which counts once if it is used, and frees it. */
static inline void make_and_free(bool is_used)
{
    bpfhost *host = NULL;
    CHECK(bpfhost_new(&host, 1, &test_seed) == BPFHOST_DONE);
    if (is_used) {
        open_counter(host, 0);
        CHECK(count_once(host, 0) == 1);
    }
    bpfhost_free(host);
}

#endif
