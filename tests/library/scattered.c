/* Packets that lie anywhere (bpfhost_run_scattered), and contexts for each packet (bpfhost_run_packets_with): compared with the test-run
 * frames of the same packets on a second host, for random batches, buffers and contexts; and that what is refused changes nothing. */
#include "common.h"
#include <string.h>

/* What a run counts for in a bound: 54 instructions, and two calls. */
enum { WEIGHT = 54 + 2 * BPFHOST_CALL_WEIGHT, MOST_PACKETS = 200, BYTES = 200000, MOST_BUFFER = 65536, COUNTER = 4, UNSET = 0x5a5a5a5a };

#define SLOT(op, dst, src, off, imm)                                                                                            \
    (uint8_t)(op), (uint8_t)((dst) | (src) << 4), (uint8_t)(off), (uint8_t)((off) < 0 ? 0xff : 0), (uint8_t)(imm),              \
        (uint8_t)((imm) < 0 ? 0xff : 0), (uint8_t)((imm) < 0 ? 0xff : 0), (uint8_t)((imm) < 0 ? 0xff : 0)
/* r0 = 31 * r0 + *(u32 *)(r6 + at) */
#define ADD_WORD(at) SLOT(0x61, 2, 6, at, 0), SLOT(0x27, 0, 0, 0, 31), SLOT(0x0f, 0, 2, 0, 0)

/* Counts its runs in the array of descriptor 3. Its result depends on the count, the packet's last byte and length, and each word of the
 * context. */
static const uint8_t mixes[] = {
    SLOT(0xbf, 6, 1, 0, 0),   /* r6 = r1 */
    SLOT(0x7a, 10, 0, -8, 0), /* *(u64 *)(r10 - 8) = 0 */
    SLOT(0x61, 2, 6, 0, 0),   /* r2 = *(u32 *)(r6 + 0) */
    SLOT(0x07, 2, 0, 0, -1),  /* r2 += -1 */
    SLOT(0xbf, 3, 10, 0, 0),  /* r3 = r10 */
    SLOT(0x07, 3, 0, 0, -8),  /* r3 += -8 */
    SLOT(0xb7, 4, 0, 0, 1),   /* r4 = 1 */
    SLOT(0x85, 0, 0, 0, 26),  /* call 26 */
    SLOT(0x62, 10, 0, -12, 0), /* *(u32 *)(r10 - 12) = 0 */
    SLOT(0x18, 1, 1, 0, 3),   SLOT(0, 0, 0, 0, 0), /* r1 = map_fd 3 ll */
    SLOT(0xbf, 2, 10, 0, 0),  /* r2 = r10 */
    SLOT(0x07, 2, 0, 0, -12), /* r2 += -12 */
    SLOT(0x85, 0, 0, 0, 1),   /* call 1 */
    SLOT(0x55, 0, 0, 2, 0),   /* if r0 != 0 goto there */
    SLOT(0xb7, 0, 0, 0, 0),   /* r0 = 0 */
    SLOT(0x95, 0, 0, 0, 0),   /* exit */
    SLOT(0xb7, 1, 0, 0, 1),   /* there: r1 = 1 */
    SLOT(0xdb, 0, 1, 0, 0),   /* lock *(u64 *)(r0 + 0) += r1 */
    SLOT(0x79, 0, 0, 0, 0),   /* r0 = *(u64 *)(r0 + 0) */
    SLOT(0x79, 2, 10, -8, 0), /* r2 = *(u64 *)(r10 - 8) */
    SLOT(0x27, 0, 0, 0, 31),  /* r0 *= 31 */
    SLOT(0x0f, 0, 2, 0, 0),   /* r0 += r2 */
    ADD_WORD(0), ADD_WORD(4), ADD_WORD(8), ADD_WORD(12), ADD_WORD(16), ADD_WORD(20), ADD_WORD(24), ADD_WORD(28), ADD_WORD(32),
    ADD_WORD(36), ADD_WORD(40),
    SLOT(0x95, 0, 0, 0, 0)    /* exit */
};

static uint8_t bytes[BYTES], in_one_piece[MOST_PACKETS * BYTES / 8], buffer[MOST_BUFFER];
static bpfhost_context contexts[MOST_PACKETS];
static bpfhost_packet packets[MOST_PACKETS];
static size_t ends[MOST_PACKETS];
static uint32_t results[MOST_PACKETS + 1];

/* A host whose tenant 1 has the map, descriptor 3, and the program, descriptor 4. */
static bpfhost *new_host(void)
{
    uint8_t frame[8 + sizeof mixes];
    bpfhost *host = NULL;
    CHECK(bpfhost_new(&host, 2, &test_seed) == BPFHOST_DONE);
    size_t length = bpfhost_frame_map_create(frame, sizeof frame, 1, BPFHOST_ARRAY, 4, 8, 1, 0);
    CHECK(ask(host, frame, length).status == 3);
    length = bpfhost_frame_prog_load(frame, sizeof frame, 1, BPFHOST_SOCKET_FILTER, mixes, sizeof mixes / 8);
    CHECK(ask(host, frame, length).status == COUNTER);
    return host;
}

/* How often the program ran. */
static uint64_t count_of(bpfhost *host)
{
    uint8_t frame[12];
    static const uint32_t index = 0;
    bpfhost_reply reply = ask(host, frame, bpfhost_frame_map_lookup(frame, sizeof frame, 1, 3, &index, sizeof index));
    CHECK(reply.status == 0 && reply.payload_length == 8);
    return bpfhost_get32(reply.payload);
}

static void unset(void)
{
    for (size_t i = 0; i <= MOST_PACKETS; i++)
        results[i] = UNSET;
}

/* ---- compared with frames */

/* The results are those of frames on another host, of which there are `count`, and no other was written. */
static void same_as_frames(bpfhost *other, const bpfhost_context *given, size_t given_count, size_t count)
{
    static uint8_t frame[BPFHOST_TEST_RUN_HEAD + BPFHOST_LONGEST_PACKET];
    for (size_t i = 0; i < count; i++) {
        const bpfhost_context *context = given_count == 0 ? NULL : given_count == 1 ? given : &given[i];
        size_t length = bpfhost_frame_prog_test_run(frame, sizeof frame, 1, COUNTER, context, packets[i].at, packets[i].length);
        bpfhost_reply reply = ask(other, frame, length);
        CHECK(reply.status == 0 && reply.result == results[i]);
    }
    CHECK(results[count] == UNSET);
}

static size_t any_length(uint64_t *state)
{
    static const size_t lengths[] = {0, 1, 60, 64, 1500, 9000};
    uint64_t which = random_number(state) % 64;
    return which == 63 ? BPFHOST_LONGEST_PACKET : which < 48 ? lengths[which % 6] : (size_t)(random_number(state) % 300);
}

/* Any packets, of which some overlap others; one without bytes may have no address. Returns how many. */
static size_t any_packets(uint64_t *state)
{
    size_t count = random_number(state) % 8 == 0 ? 0 : (size_t)(random_number(state) % (MOST_PACKETS + 1));
    for (size_t i = 0; i < count; i++) {
        packets[i].length = any_length(state);
        packets[i].at = bytes + random_number(state) % (BYTES - packets[i].length);
        if (packets[i].length == 0 && random_number(state) % 2 == 0)
            packets[i].at = NULL;
    }
    return count;
}

/* No contexts, one, or one for each packet. */
static size_t any_contexts(uint64_t *state, size_t count)
{
    uint64_t which = random_number(state) % 3;
    for (size_t i = 0; i < MOST_PACKETS; i++)
        for (size_t at = 0; at < sizeof *contexts; at++)
            ((uint8_t *)&contexts[i])[at] = (uint8_t)random_number(state);
    return which == 0 ? 0 : which == 1 ? 1 : count;
}

static void copies_to_one_piece(size_t count)
{
    size_t end = 0;
    for (size_t i = 0; i < count; i++) {
        if (packets[i].length != 0)
            memcpy(in_one_piece + end, packets[i].at, packets[i].length);
        end += packets[i].length;
        ends[i] = end;
    }
}

/* Any bound: none, one that allows no packet whole, or some packets of the program. */
static uint64_t any_bound(uint64_t *state)
{
    uint64_t which = random_number(state) % 8;
    return which == 0 ? 0 : which == 1 ? 1 + random_number(state) % WEIGHT : random_number(state) % (220 * WEIGHT) + 1;
}

/* How many packets of so many a bound allows. */
static size_t allowed(uint64_t bound, size_t count)
{
    uint64_t runs = bound < WEIGHT ? 1 : bound / WEIGHT;
    return bound == 0 || runs > count ? count : (size_t)runs;
}

/* Random batches with random bounds, by each of both functions and by frames, each on a host of its own: the same packets are run. A packet
 * that is too long comes after them. */
static void compares_bounded(unsigned batches)
{
    static const size_t buffers[] = {0, 1, 63, 64, 1499, 1500, 4096, MOST_BUFFER};
    bpfhost *scattered = new_host(), *together = new_host(), *by_frames = new_host(), *again = new_host();
    uint64_t state = 0x2545f4914f6cdd1d;
    for (unsigned i = 0; i < batches; i++) {
        size_t count = any_packets(&state), given = any_contexts(&state, count), room = buffers[random_number(&state) % 8];
        uint64_t bound = any_bound(&state);
        size_t wanted = allowed(bound, count), ran = 99, later = count;
        int32_t status = 1;
        if (wanted < count)
            later = wanted + random_number(&state) % (count - wanted);
        if (later < count)
            packets[later].at = bytes, packets[later].length = BPFHOST_LONGEST_PACKET + 1;
        unset();
        CHECK(bpfhost_run_bounded_scattered(scattered, 1, COUNTER, contexts, given, packets, count, buffer, room, bound, results, &status,
                                            &ran) == BPFHOST_DONE);
        CHECK(status == 0 && ran == wanted);
        same_as_frames(by_frames, contexts, given, wanted);
        CHECK(count_of(scattered) == count_of(by_frames));
        if (later < count)
            packets[later].length = 0;
        copies_to_one_piece(count);
        if (later < count)
            ends[later] = SIZE_MAX;
        unset();
        status = 1, ran = 99;
        CHECK(bpfhost_run_bounded_with(together, 1, COUNTER, contexts, given, in_one_piece, sizeof in_one_piece, ends, count, bound,
                                       results, &status, &ran) == BPFHOST_DONE);
        CHECK(status == 0 && ran == wanted);
        same_as_frames(again, contexts, given, wanted);
        CHECK(count_of(together) == count_of(again));
    }
    bpfhost_free(scattered);
    bpfhost_free(together);
    bpfhost_free(by_frames);
    bpfhost_free(again);
}

/* Random batches by each of both functions, and by frames, each on a host of its own. */
static void compares(unsigned batches)
{
    static const size_t buffers[] = {0, 1, 63, 64, 1499, 1500, 4096, MOST_BUFFER};
    bpfhost *scattered = new_host(), *together = new_host(), *by_frames = new_host(), *again = new_host();
    uint64_t state = 0x9e3779b97f4a7c15;
    for (size_t i = 0; i < BYTES; i++)
        bytes[i] = (uint8_t)random_number(&state);
    for (unsigned i = 0; i < batches; i++) {
        size_t count = any_packets(&state), given = any_contexts(&state, count), room = buffers[random_number(&state) % 8];
        int32_t status = 1;
        unset();
        CHECK(bpfhost_run_scattered(scattered, 1, COUNTER, given == 0 ? NULL : contexts, given, count == 0 ? NULL : packets, count,
                                    room == 0 ? NULL : buffer, room, count == 0 ? NULL : results, &status) == BPFHOST_DONE);
        CHECK(status == 0);
        same_as_frames(by_frames, contexts, given, count);
        CHECK(count_of(scattered) == count_of(by_frames));
        copies_to_one_piece(count);
        unset();
        status = 1;
        CHECK(bpfhost_run_packets_with(together, 1, COUNTER, given == 0 ? NULL : contexts, given, in_one_piece, sizeof in_one_piece,
                                       ends, count, results, &status) == BPFHOST_DONE);
        CHECK(status == 0);
        same_as_frames(again, contexts, given, count);
        CHECK(count_of(together) == count_of(again));
    }
    bpfhost_free(scattered);
    bpfhost_free(together);
    bpfhost_free(by_frames);
    bpfhost_free(again);
}

/* ---- what is refused */

/* Both functions refuse a batch with this status; the program has not run, and no result is written. */
static void refuses(bpfhost *host, uint16_t tenant, uint32_t fd, size_t given, size_t count, int32_t wanted)
{
    uint64_t before = count_of(host);
    for (size_t room = 0; room <= MOST_BUFFER; room += MOST_BUFFER) {
        int32_t status = 1;
        unset();
        CHECK(bpfhost_run_scattered(host, tenant, fd, contexts, given, packets, count, buffer, room, results, &status) == BPFHOST_DONE);
        CHECK(status == wanted && count_of(host) == before);
        copies_to_one_piece(count);
        status = 1;
        CHECK(bpfhost_run_packets_with(host, tenant, fd, contexts, given, in_one_piece, sizeof in_one_piece, ends, count, results,
                                       &status) == BPFHOST_DONE);
        CHECK(status == wanted && count_of(host) == before);
        for (uint64_t bound = 0; bound <= UINT64_MAX / 2; bound += UINT64_MAX / 4) {
            size_t ran = 99;
            status = 1;
            CHECK(bpfhost_run_bounded_scattered(host, tenant, fd, contexts, given, packets, count, buffer, room, bound, results, &status, &ran)
                  == BPFHOST_DONE);
            CHECK(status == wanted && ran == 0 && count_of(host) == before);
        }
        for (size_t i = 0; i <= MOST_PACKETS; i++)
            CHECK(results[i] == UNSET);
    }
}

static void checks_refusals(void)
{
    bpfhost *host = new_host();
    for (size_t i = 0; i < MOST_PACKETS; i++) {
        packets[i].at = bytes;
        packets[i].length = 60;
    }
    refuses(host, 2, COUNTER, 0, 3, -1);
    refuses(host, 1, 5, 1, 3, -9);
    refuses(host, 1, 3, 3, 3, -22);
    refuses(host, 2, COUNTER, 0, 0, -1);
    refuses(host, 1, 5, 0, 0, -9);
    /* Neither one context nor one for each packet. */
    refuses(host, 1, COUNTER, 2, 3, -22);
    refuses(host, 1, COUNTER, 4, 3, -22);
    refuses(host, 1, COUNTER, 2, 1, -22);
    refuses(host, 1, COUNTER, 2, 0, -22);
    refuses(host, 1, 5, 2, 3, -9);
    refuses(host, 2, COUNTER, 2, 3, -1);
    /* One packet that is too long, of any, and the order of errors. */
    for (size_t i = 0; i < MOST_PACKETS; i += i == 0 || i == 62 ? 1 : 31) {
        packets[i].length = BPFHOST_LONGEST_PACKET + 1;
        refuses(host, 1, COUNTER, i % 2, MOST_PACKETS, -7);
        refuses(host, 1, 5, 1, MOST_PACKETS, -9);
        refuses(host, 1, 3, 1, MOST_PACKETS, -22);
        refuses(host, 0, COUNTER, 1, MOST_PACKETS, -9);
        refuses(host, 2, COUNTER, 1, MOST_PACKETS, -1);
        refuses(host, 1, COUNTER, MOST_PACKETS - 1, MOST_PACKETS, -22);
        packets[i].length = 60;
    }
    bpfhost_free(host);
}

/* ---- objects */

/* A call with these objects is refused with this code, and writes nothing. */
#define IS_REFUSED(wanted, ...)                                                            \
    do {                                                                                   \
        CHECK(bpfhost_run_scattered(__VA_ARGS__) == (wanted));                             \
        CHECK(status == 1 && count_of(host) == 0 && results[0] == UNSET && buffer[0] == 7); \
    } while (0)

/* The packet with this number, in its place for one call. */
#define WITH_PACKET(i, address, size, wanted)                                                                       \
    do {                                                                                                            \
        packets[i].at = (address);                                                                                  \
        packets[i].length = (size);                                                                                 \
        IS_REFUSED(wanted, host, 1, COUNTER, contexts, 3, packets, 3, buffer, MOST_BUFFER, results, &status);       \
        packets[i].at = bytes;                                                                                      \
        packets[i].length = 60;                                                                                     \
    } while (0)

static void checks_objects(void)
{
    bpfhost *host = new_host();
    const size_t too_long = (size_t)PTRDIFF_MAX + 1, all = MOST_BUFFER;
    int32_t status = 1;
    unset();
    buffer[0] = 7;
    IS_REFUSED(BPFHOST_ERR_NULL, NULL, 1, COUNTER, contexts, 1, packets, 3, buffer, all, results, &status);
    IS_REFUSED(BPFHOST_ERR_NULL, host, 1, COUNTER, NULL, 1, packets, 3, buffer, all, results, &status);
    IS_REFUSED(BPFHOST_ERR_NULL, host, 1, COUNTER, contexts, 1, NULL, 3, buffer, all, results, &status);
    IS_REFUSED(BPFHOST_ERR_NULL, host, 1, COUNTER, contexts, 1, packets, 3, NULL, all, results, &status);
    IS_REFUSED(BPFHOST_ERR_NULL, host, 1, COUNTER, contexts, 1, packets, 3, buffer, all, NULL, &status);
    IS_REFUSED(BPFHOST_ERR_NULL, host, 1, COUNTER, contexts, 1, packets, 3, buffer, all, results, NULL);
    IS_REFUSED(BPFHOST_ERR_LENGTH, host, 1, COUNTER, contexts, too_long, packets, 3, buffer, all, results, &status);
    IS_REFUSED(BPFHOST_ERR_LENGTH, host, 1, COUNTER, contexts, SIZE_MAX / sizeof *contexts + 2, packets, 3, buffer, all, results, &status);
    IS_REFUSED(BPFHOST_ERR_LENGTH, host, 1, COUNTER, contexts, 1, packets, SIZE_MAX / sizeof *packets + 2, buffer, all, results, &status);
    IS_REFUSED(BPFHOST_ERR_LENGTH, host, 1, COUNTER, contexts, 1, packets, 3, buffer, too_long, results, &status);
    /* What is written: the host, the buffer, the results and the status; each with each, and with what is read. */
    IS_REFUSED(BPFHOST_ERR_OVERLAP, host, 1, COUNTER, contexts, 1, packets, 3, host, 8, results, &status);
    IS_REFUSED(BPFHOST_ERR_OVERLAP, host, 1, COUNTER, contexts, 1, packets, 3, results + 2, 4, results, &status);
    IS_REFUSED(BPFHOST_ERR_OVERLAP, host, 1, COUNTER, contexts, 1, packets, 3, &status, 1, results, &status);
    IS_REFUSED(BPFHOST_ERR_OVERLAP, host, 1, COUNTER, contexts, 1, packets, 3, buffer, all, (uint32_t *)(void *)host, &status);
    IS_REFUSED(BPFHOST_ERR_OVERLAP, host, 1, COUNTER, contexts, 1, packets, 3, buffer, all, (uint32_t *)&status, &status);
    IS_REFUSED(BPFHOST_ERR_OVERLAP, host, 1, COUNTER, contexts, 1, packets, 3, contexts, 40, results, &status);
    IS_REFUSED(BPFHOST_ERR_OVERLAP, host, 1, COUNTER, contexts, 3, packets, 3, contexts + 2, 1, results, &status);
    IS_REFUSED(BPFHOST_ERR_OVERLAP, host, 1, COUNTER, contexts, 1, packets, 3, packets + 2, 8, results, &status);
    IS_REFUSED(BPFHOST_ERR_OVERLAP, host, 1, COUNTER, contexts, 1, packets, 3, buffer, all, (uint32_t *)(void *)packets, &status);
    for (size_t i = 0; i < 3; i++) {
        WITH_PACKET(i, NULL, 1, BPFHOST_ERR_NULL);
        WITH_PACKET(i, bytes, too_long, BPFHOST_ERR_LENGTH);
        WITH_PACKET(i, host, 1, BPFHOST_ERR_OVERLAP);
        WITH_PACKET(i, buffer + all - 1, 60, BPFHOST_ERR_OVERLAP);
        WITH_PACKET(i, results + 2, 60, BPFHOST_ERR_OVERLAP);
        WITH_PACKET(i, &status, 1, BPFHOST_ERR_OVERLAP);
    }
    bpfhost_free(host);
}

/* The number of packets that were run is an object too, as the others are with a bound. */
static void checks_bounded_objects(void)
{
    bpfhost *host = new_host();
    const size_t all = MOST_BUFFER;
    int32_t status = 1;
    size_t ran = 99;
    void *const others[] = {host, results, &status, contexts, packets, buffer, bytes};
    unset();
    buffer[0] = 7;
    CHECK(bpfhost_run_bounded_scattered(NULL, 1, COUNTER, contexts, 1, packets, 3, buffer, all, 1, results, &status, &ran) == BPFHOST_ERR_NULL);
    CHECK(bpfhost_run_bounded_scattered(host, 1, COUNTER, contexts, 1, packets, 3, buffer, all, 1, results, &status, NULL) == BPFHOST_ERR_NULL);
    CHECK(bpfhost_run_bounded_scattered(host, 1, COUNTER, contexts, 1, NULL, 3, buffer, all, 1, results, &status, &ran) == BPFHOST_ERR_NULL);
    CHECK(bpfhost_run_bounded_scattered(host, 1, COUNTER, contexts, 1, packets, SIZE_MAX / 2, buffer, all, 1, results, &status, &ran)
          == BPFHOST_ERR_LENGTH);
    CHECK(bpfhost_run_bounded_scattered(host, 1, COUNTER, contexts, SIZE_MAX / 2, packets, 3, buffer, all, 1, results, &status, &ran)
          == BPFHOST_ERR_LENGTH);
    for (size_t i = 0; i < sizeof others / sizeof *others; i++)
        CHECK(bpfhost_run_bounded_scattered(host, 1, COUNTER, contexts, 3, packets, 3, buffer, all, 0, results, &status, (size_t *)others[i])
              == BPFHOST_ERR_OVERLAP);
    CHECK(ran == 99 && status == 1 && count_of(host) == 0 && results[0] == UNSET && buffer[0] == 7);
    bpfhost_free(host);
}

int main(int word_count, char **words)
{
    unsigned batches = word_count > 1 ? (unsigned)strtoul(words[1], NULL, 10) : 2000;
    compares(batches);
    compares_bounded(batches);
    checks_refusals();
    checks_objects();
    checks_bounded_objects();
    printf("scattered: %u batches have the results of their frames, and what is refused changes nothing\n", batches);
    return 0;
}
