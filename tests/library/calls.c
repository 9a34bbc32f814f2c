/* Each call and each code: what a successful call writes, and that any other writes nothing. */
#include "common.h"
#include <string.h>

static uint8_t room[BPFHOST_LONGEST_REPLY];
static const uint8_t close_nothing[8] = {0, 0, 0, 1, 99};

static void checks_new(void)
{
    bpfhost *host = NULL;
    CHECK(bpfhost_new(NULL, 1, &test_seed) == BPFHOST_ERR_NULL);
    CHECK(bpfhost_new(&host, 1, NULL) == BPFHOST_ERR_NULL && host == NULL);
    CHECK(bpfhost_new(&host, 0, &test_seed) == BPFHOST_ERR_TENANT_COUNT && host == NULL);
    CHECK(bpfhost_new(&host, BPFHOST_MOST_TENANTS + 1, &test_seed) == BPFHOST_ERR_TENANT_COUNT && host == NULL);
    CHECK(bpfhost_new(&host, SIZE_MAX, &test_seed) == BPFHOST_ERR_TENANT_COUNT && host == NULL);
    CHECK(bpfhost_new(&host, BPFHOST_MOST_TENANTS, &test_seed) == BPFHOST_DONE && host != NULL);
    bpfhost_free(host);
    CHECK(bpfhost_new(&host, 2, &test_seed) == BPFHOST_DONE);
    open_counter(host, 1);
    CHECK(count_once(host, 1) == 1 && count_once(host, 1) == 2);
    bpfhost_free(host);
    bpfhost_free(NULL);
}

/* What the proved functions say of a handle that has a host already, or none: a bpfhost of bpfhost_new has one. */
static void checks_handles(void)
{
    bpfhost_memory memory = {NULL, NULL, {NULL, 0}, 0, 0};
    bpfhost *host = (bpfhost *)(void *)&memory;
    void *first;
    bpfhost_bytes lent = {room, 7};
    bpfhost_reply reply;
    size_t written = 7;
    bool refused = true;
    memset(&reply, 0x5a, sizeof reply);
    memset(room, 0x5a, sizeof room);
    CHECK(bpfhost_handle(host, close_nothing, 8, room, sizeof room, &written) == BPFHOST_ERR_NO_HOST);
    CHECK(written == 7 && room[0] == 0x5a && room[sizeof room - 1] == 0x5a);
    CHECK(bpfhost_handle_lent(host, close_nothing, 8, &lent) == BPFHOST_ERR_NO_HOST && lent.length == 0);
    CHECK(bpfhost_ask(host, close_nothing, 8, &reply) == BPFHOST_ERR_NO_HOST && reply.command == 0x5a5a);
    CHECK(bpfhost_memory_refused(host, 0, &refused) == BPFHOST_ERR_NO_HOST && refused);
    bpfhost_c_free(host);
    CHECK(memory.handle == NULL);
    CHECK(bpfhost_c_new(host, 2, 1, 2) == BPFHOST_DONE && memory.handle != NULL);
    open_counter(host, 1);
    CHECK(count_once(host, 1) == 1);
    /* A second one leaves the first. */
    first = memory.handle;
    CHECK(bpfhost_c_new(host, 3, 1, 2) == BPFHOST_ERR_HAS_HOST && memory.handle == first);
    CHECK(bpfhost_c_new(host, 0, 1, 2) == BPFHOST_ERR_TENANT_COUNT && memory.handle == first);
    CHECK(count_once(host, 1) == 2);
    bpfhost_c_free(host);
    bpfhost_c_free(host);
    CHECK(memory.handle == NULL);
}

static void checks_nulls_and_lengths(bpfhost *host)
{
    size_t written = 7, few = 4, none = 0, all = sizeof room;
    size_t too_long = (size_t)PTRDIFF_MAX + 1;
    bpfhost_bytes lent;
    bpfhost_reply reply;
    bool refused = true;
    CHECK(bpfhost_handle(NULL, close_nothing, 8, room, all, &written) == BPFHOST_ERR_NULL);
    CHECK(bpfhost_handle(host, NULL, few, room, all, &written) == BPFHOST_ERR_NULL);
    CHECK(bpfhost_handle(host, close_nothing, 8, NULL, none, &written) == BPFHOST_ERR_NULL);
    CHECK(bpfhost_handle(host, close_nothing, 8, room, all, NULL) == BPFHOST_ERR_NULL);
    CHECK(bpfhost_handle(host, close_nothing, too_long, room, all, &written) == BPFHOST_ERR_LENGTH);
    CHECK(bpfhost_handle(host, close_nothing, SIZE_MAX, room, all, &written) == BPFHOST_ERR_LENGTH);
    CHECK(bpfhost_handle(host, close_nothing, 8, room, too_long, &written) == BPFHOST_ERR_LENGTH);
    CHECK(bpfhost_handle(host, close_nothing, 8, room, SIZE_MAX, &written) == BPFHOST_ERR_LENGTH);
    CHECK(bpfhost_handle(host, close_nothing, 8, room, 0, &written) == BPFHOST_ERR_BUFFER_TOO_SMALL);
    CHECK(bpfhost_handle(host, close_nothing, 8, room, all - 1, &written) == BPFHOST_ERR_BUFFER_TOO_SMALL);
    CHECK(written == 7);
    CHECK(bpfhost_handle(host, NULL, 0, room, all, &written) == BPFHOST_DONE && written == 12);
    CHECK(bpfhost_handle_lent(NULL, close_nothing, 8, &lent) == BPFHOST_ERR_NULL && lent.length == 0);
    CHECK(bpfhost_handle_lent(host, NULL, few, &lent) == BPFHOST_ERR_NULL && lent.length == 0);
    CHECK(bpfhost_handle_lent(host, close_nothing, 8, NULL) == BPFHOST_ERR_NULL);
    CHECK(bpfhost_handle_lent(host, close_nothing, too_long, &lent) == BPFHOST_ERR_LENGTH && lent.length == 0);
    CHECK(bpfhost_handle_lent(host, NULL, 0, &lent) == BPFHOST_DONE && lent.length == 12);
    CHECK(bpfhost_ask(NULL, close_nothing, 8, &reply) == BPFHOST_ERR_NULL);
    CHECK(bpfhost_ask(host, close_nothing, 8, NULL) == BPFHOST_ERR_NULL);
    CHECK(bpfhost_memory_refused(NULL, 0, &refused) == BPFHOST_ERR_NULL && refused);
    CHECK(bpfhost_memory_refused(host, 0, NULL) == BPFHOST_ERR_NULL);
    CHECK(bpfhost_memory_refused(host, 0, &refused) == BPFHOST_DONE && !refused);
    refused = true;
    CHECK(bpfhost_memory_refused(host, 65535, &refused) == BPFHOST_DONE && !refused);
}

/* What reaches the last address overlaps all other objects, whatever it is given for. */
static void checks_the_last_address(bpfhost *host)
{
    uint8_t *room = (uint8_t *)(UINTPTR_MAX - BPFHOST_LONGEST_REPLY + 1), bytes[8] = {0};
    size_t written = 0, ends[1] = {8};
    uint32_t results[1] = {0}, *last_result = (uint32_t *)(UINTPTR_MAX - 3);
    int32_t status = 0, *last_status = (int32_t *)(UINTPTR_MAX - 3);
    size_t *last_size = (size_t *)(UINTPTR_MAX - sizeof(size_t) + 1);
    bpfhost_bytes *last_lent = (bpfhost_bytes *)(UINTPTR_MAX - sizeof(bpfhost_bytes) + 1);
    bpfhost_reply *last_reply = (bpfhost_reply *)(UINTPTR_MAX - sizeof(bpfhost_reply) + 1);
    const bpfhost_packet packet = {bytes, 8}, last_packet = {room, BPFHOST_LONGEST_REPLY};
    CHECK(bpfhost_handle(host, close_nothing, 8, room, BPFHOST_LONGEST_REPLY, &written) == BPFHOST_ERR_OVERLAP);
    CHECK(bpfhost_handle(host, room, BPFHOST_LONGEST_REPLY, bytes, 8, &written) == BPFHOST_ERR_OVERLAP);
    CHECK(bpfhost_handle(host, close_nothing, 8, bytes, 8, last_size) == BPFHOST_ERR_OVERLAP);
    CHECK(bpfhost_handle_lent(host, close_nothing, 8, last_lent) == BPFHOST_ERR_OVERLAP);
    CHECK(bpfhost_ask(host, close_nothing, 8, last_reply) == BPFHOST_ERR_OVERLAP);
    CHECK(bpfhost_run_packets(host, 0, 3, NULL, bytes, 8, ends, 1, last_result, &status) == BPFHOST_ERR_OVERLAP);
    CHECK(bpfhost_run_packets(host, 0, 3, NULL, bytes, 8, ends, 1, results, last_status) == BPFHOST_ERR_OVERLAP);
    CHECK(bpfhost_run_packets(host, 0, 3, NULL, bytes, 8, last_size, 1, results, &status) == BPFHOST_ERR_OVERLAP);
    CHECK(bpfhost_run_packets(host, 0, 3, NULL, room, BPFHOST_LONGEST_REPLY, ends, 1, results, &status) == BPFHOST_ERR_OVERLAP);
    CHECK(bpfhost_run_packets_sized(host, 0, 3, last_result, 4, 1, bytes, 8, ends, 1, results, &status) == BPFHOST_ERR_OVERLAP);
    CHECK(bpfhost_run_bounded(host, 0, 3, NULL, bytes, 8, ends, 1, 1, results, &status, last_size) == BPFHOST_ERR_OVERLAP);
    CHECK(bpfhost_run_scattered(host, 0, 3, NULL, 0, &last_packet, 1, NULL, 0, results, &status) == BPFHOST_ERR_OVERLAP);
    CHECK(bpfhost_run_scattered(host, 0, 3, NULL, 0, &packet, 1, room, BPFHOST_LONGEST_REPLY, results, &status) == BPFHOST_ERR_OVERLAP);
    CHECK(bpfhost_run_scattered(host, 0, 3, NULL, 0, &packet, 1, NULL, 0, last_result, &status) == BPFHOST_ERR_OVERLAP);
    CHECK(bpfhost_run_scattered(host, 0, 3, NULL, 0, &packet, 1, NULL, 0, results, last_status) == BPFHOST_ERR_OVERLAP);
    CHECK(bpfhost_run_bounded_scattered(host, 0, 3, NULL, 0, &packet, 1, NULL, 0, 1, results, &status, last_size) == BPFHOST_ERR_OVERLAP);
    CHECK(written == 0 && results[0] == 0 && status == 0);
    /* An object without bytes may lie there. */
    CHECK(bpfhost_handle(host, (uint8_t *)UINTPTR_MAX, 0, bytes, 8, &written) == BPFHOST_ERR_BUFFER_TOO_SMALL);
}

static void checks_overlaps(bpfhost *host)
{
    static union {
        uint8_t bytes[2 * BPFHOST_LONGEST_REPLY];
        size_t number;
        bpfhost_bytes lent;
    } whole;
    uint8_t *b = whole.bytes;
    size_t written = 7, all = BPFHOST_LONGEST_REPLY;
    bool *on_handle = (bool *)(void *)host;
    CHECK(bpfhost_handle(host, b, 8, b, all, &written) == BPFHOST_ERR_OVERLAP);
    CHECK(bpfhost_handle(host, b + all - 1, 8, b, all, &written) == BPFHOST_ERR_OVERLAP);
    CHECK(bpfhost_handle(host, b, 8, b + 7, all, &written) == BPFHOST_ERR_OVERLAP);
    CHECK(bpfhost_handle(host, host, 1, b, all, &written) == BPFHOST_ERR_OVERLAP);
    CHECK(bpfhost_handle(host, close_nothing, 8, host, all, &written) == BPFHOST_ERR_OVERLAP);
    CHECK(bpfhost_handle(host, close_nothing, 8, b, all, &whole.number) == BPFHOST_ERR_OVERLAP);
    CHECK(bpfhost_handle(host, b, 8, b + 8, all, &whole.number) == BPFHOST_ERR_OVERLAP);
    CHECK(bpfhost_handle(host, close_nothing, 8, b, all, (size_t *)(void *)host) == BPFHOST_ERR_OVERLAP);
    CHECK(written == 7);
    CHECK(bpfhost_handle_lent(host, host, 8, &whole.lent) == BPFHOST_ERR_OVERLAP);
    CHECK(bpfhost_handle_lent(host, b, 8, &whole.lent) == BPFHOST_ERR_OVERLAP);
    CHECK(bpfhost_handle_lent(host, close_nothing, 8, (bpfhost_bytes *)(void *)host) == BPFHOST_ERR_OVERLAP);
    CHECK(bpfhost_memory_refused(host, 0, on_handle) == BPFHOST_ERR_OVERLAP);
    /* Objects side by side do not overlap, and an empty frame may be anywhere. */
    memcpy(b, close_nothing, 8);
    CHECK(bpfhost_handle(host, b, 8, b + 8, all, &written) == BPFHOST_DONE && written == 12);
    memcpy(b + all, close_nothing, 8);
    CHECK(bpfhost_handle(host, b + all, 8, b, all, &written) == BPFHOST_DONE);
    CHECK(bpfhost_handle(host, b + 1, 0, b, all, &written) == BPFHOST_DONE && written == 12);
    CHECK(bpfhost_are_apart(b, 0, b, 8) && !bpfhost_are_apart(b, 1, b, 8) && bpfhost_are_apart(b, 1, b + 1, 8));
    CHECK(bpfhost_are_apart((void *)(UINTPTR_MAX - 4), 4, (void *)4, 4));
    CHECK(!bpfhost_are_apart((void *)(UINTPTR_MAX - 3), 4, (void *)4, 4) && bpfhost_are_apart((void *)(UINTPTR_MAX - 3), 4, (void *)4, 0));
    checks_the_last_address(host);
}

/* The reply is at the front of the room, and the bytes after it have not changed; a lent reply is the same. */
static void checks_replies(bpfhost *host)
{
    uint8_t key[4] = {0}, value[BPFHOST_LONGEST_PAYLOAD], frame[4200];
    bpfhost_bytes lent;
    bpfhost_reply reply;
    size_t length, written;
    for (size_t i = 0; i < sizeof value; i++)
        value[i] = (uint8_t)(i * 7 + 1);
    length = bpfhost_frame_map_create(frame, sizeof frame, 0, BPFHOST_ARRAY, 4, sizeof value, 1, 0);
    CHECK(ask(host, frame, length).status == 3);
    length = bpfhost_frame_map_update(frame, sizeof frame, 0, 3, BPFHOST_EXIST, key, 4, value, sizeof value);
    CHECK(length == 16 + 4 + 4096 && ask(host, frame, length).status == 0);
    length = bpfhost_frame_map_lookup(frame, sizeof frame, 0, 3, key, 4);
    memset(room, 0xa5, sizeof room);
    CHECK(bpfhost_handle(host, frame, length, room, sizeof room, &written) == BPFHOST_DONE);
    CHECK(written == BPFHOST_LONGEST_REPLY && memcmp(room + 12, value, sizeof value) == 0);
    CHECK(bpfhost_handle_lent(host, frame, length, &lent) == BPFHOST_DONE);
    CHECK(lent.length == written && memcmp(lent.at, room, written) == 0);
    memset(room, 0xa5, sizeof room);
    CHECK(bpfhost_handle(host, close_nothing, 8, room, sizeof room, &written) == BPFHOST_DONE && written == 12);
    for (size_t i = written; i < sizeof room; i++)
        CHECK(room[i] == 0xa5);
    CHECK(bpfhost_read_reply(room, written, &reply) == BPFHOST_DONE);
    CHECK(reply.tenant == 0 && reply.command == BPFHOST_CLOSE && reply.status == -9 && reply.payload_length == 0);
    memset(&reply, 0x5a, sizeof reply);
    CHECK(bpfhost_read_reply(room, 11, &reply) == BPFHOST_ERR_NO_REPLY);
    CHECK(bpfhost_read_reply(room, 13, &reply) == BPFHOST_ERR_NO_REPLY);
    CHECK(bpfhost_read_reply(room, sizeof room + 1, &reply) == BPFHOST_ERR_NO_REPLY);
    CHECK(bpfhost_read_reply(NULL, 12, &reply) == BPFHOST_ERR_NULL && bpfhost_read_reply(room, 12, NULL) == BPFHOST_ERR_NULL);
    CHECK(reply.status == 0x5a5a5a5a);
    length = bpfhost_frame_close(frame, sizeof frame, 0, 3);
    CHECK(ask(host, frame, length).status == 0);
}

/* Each command by its function, and the frames against bytes that were written from docs/PROTOCOL.md by hand. */
static void checks_frames(bpfhost *host)
{
    static const uint8_t create[24] = {2, 1, 0, 0, 1, 0, 0, 0, 4, 0, 0, 0, 8, 0, 0, 0, 16, 0, 0, 0, 0, 0, 0, 0};
    static const uint8_t update[28] = {1, 0, 2, 0, 3, 0, 0, 0, 8, 7, 6, 5, 4, 3, 2, 1, 'k', 'e', 'y', '1',
                                       'v', 'a', 'l', 'u', 'e', '0', '0', '1'};
    static const uint8_t look_up[12] = {1, 0, 1, 0, 3, 0, 0, 0, 'k', 'e', 'y', '1'};
    static const uint8_t load[24] = {1, 0, 5, 0, 1, 0, 0, 0, 0x61, 0x10, 0, 0, 0, 0, 0, 0, 0x95};
    static const uint8_t run[51] = {1, 0, 10, 0, 4, 0, 0, 0, 1, 0, 0, 0, 2, 0, 0, 0, 3, 0, 0, 0, 4, 0, 0, 0, 5, 0, 0, 0, 6, 0, 0, 0,
                                    7, 0, 0, 0, 8, 0, 0, 0, 9, 0, 0, 0, 10, 0, 0, 0, 'p', 'k', 't'};
    static const uint8_t close_four[8] = {1, 0, 0, 1, 4, 0, 0, 0};
    const bpfhost_context context = {1, 2, 3, 4, 5, 6, 7, 8, 9, 10};
    uint8_t f[64];
    size_t n;
    bpfhost_reply reply;
    CHECK(bpfhost_frame_map_create(f, 24, 258, BPFHOST_HASH, 4, 8, 16, 0) == 24 && memcmp(f, create, 24) == 0);
    CHECK(bpfhost_frame_map_update(f, 28, 1, 3, 0x0102030405060708, "key1", 4, "value001", 8) == 28);
    CHECK(memcmp(f, update, 28) == 0);
    CHECK(bpfhost_frame_map_lookup(f, 12, 1, 3, "key1", 4) == 12 && memcmp(f, look_up, 12) == 0);
    CHECK(bpfhost_frame_map_delete(f, 12, 1, 3, "key1", 4) == 12 && f[2] == 3 && memcmp(f + 4, look_up + 4, 8) == 0);
    CHECK(bpfhost_frame_map_next_key(f, 12, 1, 3, "key1", 4) == 12 && f[2] == 4 && memcmp(f + 4, look_up + 4, 8) == 0);
    CHECK(bpfhost_frame_map_next_key(f, 8, 1, 3, NULL, 0) == 8);
    CHECK(bpfhost_frame_prog_load(f, 24, 1, BPFHOST_SOCKET_FILTER, answers_length, 2) == 24 && memcmp(f, load, 24) == 0);
    CHECK(bpfhost_frame_prog_test_run(f, 51, 1, 4, &context, "pkt", 3) == 51 && memcmp(f, run, 51) == 0);
    CHECK(bpfhost_frame_test_run_head(f, 48, 1, 4, &context) == 48 && memcmp(f, run, 48) == 0);
    CHECK(bpfhost_frame_close(f, 8, 1, 4) == 8 && memcmp(f, close_four, 8) == 0);
    /* Too small a room, a null pointer or a length that does not fit: nothing is written. */
    memset(f, 0x5a, sizeof f);
    CHECK(bpfhost_frame_map_create(f, 23, 1, 1, 4, 8, 16, 0) == 0 && bpfhost_frame_map_create(NULL, 24, 1, 1, 4, 8, 16, 0) == 0);
    CHECK(bpfhost_frame_map_update(f, 27, 1, 3, 0, "key1", 4, "value001", 8) == 0);
    CHECK(bpfhost_frame_map_update(f, 64, 1, 3, 0, NULL, 4, "value001", 8) == 0);
    CHECK(bpfhost_frame_map_update(f, 64, 1, 3, 0, "key1", 4, NULL, 8) == 0);
    CHECK(bpfhost_frame_map_update(f, 64, 1, 3, 0, "key1", SIZE_MAX, "value001", 8) == 0);
    CHECK(bpfhost_frame_map_lookup(f, 11, 1, 3, "key1", 4) == 0 && bpfhost_frame_map_lookup(f, 64, 1, 3, NULL, 4) == 0);
    CHECK(bpfhost_frame_map_lookup(f, 64, 1, 3, "key1", SIZE_MAX - 4) == 0);
    CHECK(bpfhost_frame_prog_load(f, 64, 1, 1, answers_length, SIZE_MAX / 8 + 1) == 0);
    CHECK(bpfhost_frame_prog_load(f, 23, 1, 1, answers_length, 2) == 0);
    CHECK(bpfhost_frame_prog_test_run(f, 50, 1, 4, NULL, "pkt", 3) == 0 && bpfhost_frame_prog_test_run(f, 64, 1, 4, NULL, NULL, 3) == 0);
    CHECK(bpfhost_frame_test_run_head(f, 47, 1, 4, NULL) == 0 && bpfhost_frame_close(f, 7, 1, 4) == 0);
    for (n = 0; n < sizeof f; n++)
        CHECK(f[n] == 0x5a);
    /* And each at a host. */
    n = bpfhost_frame_map_create(f, sizeof f, 1, BPFHOST_HASH, 4, 8, 16, 0);
    CHECK(ask(host, f, n).status == 3);
    n = bpfhost_frame_map_update(f, sizeof f, 1, 3, BPFHOST_NOEXIST, "key1", 4, "value001", 8);
    CHECK(ask(host, f, n).status == 0 && ask(host, f, n).status == -17);
    n = bpfhost_frame_map_lookup(f, sizeof f, 1, 3, "key1", 4);
    reply = ask(host, f, n);
    CHECK(reply.status == 0 && reply.payload_length == 8 && memcmp(reply.payload, "value001", 8) == 0);
    n = bpfhost_frame_map_next_key(f, sizeof f, 1, 3, NULL, 0);
    reply = ask(host, f, n);
    CHECK(reply.status == 0 && reply.payload_length == 4 && memcmp(reply.payload, "key1", 4) == 0);
    n = bpfhost_frame_map_delete(f, sizeof f, 1, 3, "key1", 4);
    CHECK(ask(host, f, n).status == 0 && ask(host, f, n).status == -2);
    n = bpfhost_frame_prog_load(f, sizeof f, 1, BPFHOST_SOCKET_FILTER, answers_length, 2);
    CHECK(ask(host, f, n).status == 4);
    n = bpfhost_frame_prog_test_run(f, sizeof f, 1, 4, NULL, "packet", 6);
    reply = ask(host, f, n);
    CHECK(reply.status == 0 && reply.result == 6 && reply.tenant == 1 && reply.command == BPFHOST_PROG_TEST_RUN);
    n = bpfhost_frame_prog_load(f, sizeof f, 1, BPFHOST_SOCKET_FILTER, answers_length + 8, 1);
    reply = ask(host, f, n); /* exit, and register 0 holds nothing */
    CHECK(reply.status == -13 && reply.slot == 0 && reply.reason == 20);
    CHECK(strcmp(bpfhost_reason_text(reply.reason), "an unreadable register is read") == 0);
    CHECK(strcmp(bpfhost_reason_text(0), "no reason of bpfhost") == 0);
    n = bpfhost_frame_close(f, sizeof f, 1, 4);
    CHECK(ask(host, f, n).status == 0 && ask(host, f, n).status == -9);
    n = bpfhost_frame_close(f, sizeof f, 9, 4);
    CHECK(ask(host, f, n).status == -1);
}

/* The longest program, with a branch at each second slot, is loaded and run: it is what takes the most stack. */
static void checks_longest_program(bpfhost *host)
{
    static uint8_t slots[4096 * 8], frame[8 + sizeof slots];
    static const uint8_t begins[8] = {0xb7}, ends[8] = {0x95};           /* r0 = 0, exit */
    static const uint8_t branches[8] = {0x15, 0x00, 0x01, 0x00, 0x07};   /* if r0 == 7 goto +1 */
    static const uint8_t adds[8] = {0x07, 0x00, 0x00, 0x00, 0x01};       /* r0 += 1 */
    size_t length;
    bpfhost_reply reply;
    memcpy(slots, begins, 8);
    for (size_t i = 1; i < 4095; i++)
        memcpy(slots + 8 * i, i % 2 == 1 ? branches : adds, 8);
    memcpy(slots + 8 * 4095, ends, 8);
    length = bpfhost_frame_prog_load(frame, sizeof frame, 0, BPFHOST_SOCKET_FILTER, slots, 4096);
    CHECK(length == sizeof frame && ask(host, frame, length).status == 3);
    length = bpfhost_frame_test_run_head(frame, sizeof frame, 0, 3, NULL);
    reply = ask(host, frame, length);
    CHECK(reply.status == 0 && reply.result == 7);
    length = bpfhost_frame_close(frame, sizeof frame, 0, 3);
    CHECK(ask(host, frame, length).status == 0);
}

/* Packets of 3, 0 and 5 bytes. */
static const uint8_t three_bytes[8] = {1, 2, 3, 4, 5, 6, 7, 8};
static const size_t three_ends[3] = {3, 3, 8};

/* A batch that is refused with this status writes no result. */
static void refuses_packets(bpfhost *host, uint16_t tenant, uint32_t fd, const size_t *ends, size_t packets, int32_t wanted)
{
    uint32_t results[3] = {7, 8, 9};
    int32_t status = 1;
    CHECK(bpfhost_run_packets(host, tenant, fd, NULL, three_bytes, 8, ends, packets, results, &status) == BPFHOST_DONE);
    CHECK(status == wanted && results[0] == 7 && results[1] == 8 && results[2] == 9);
}

static void checks_packets(void)
{
    static uint8_t long_packet[65537];
    static const size_t too_long[2] = {1, 65538}, behind[2] = {2, 9}, backward[3] = {3, 2, 8};
    static uint8_t two_packets[65538];
    bpfhost *host = NULL;
    uint8_t frame[128];
    uint32_t results[3] = {7, 8, 9};
    int32_t status = 1;
    size_t end = sizeof long_packet, length;
    CHECK(bpfhost_new(&host, 2, &test_seed) == BPFHOST_DONE);
    open_counter(host, 1);
    length = bpfhost_frame_prog_load(frame, sizeof frame, 1, BPFHOST_SOCKET_FILTER, answers_length, 2);
    CHECK(ask(host, frame, length).status == 5);
    /* Each packet has its own length, and the counter counts each. */
    CHECK(bpfhost_run_packets(host, 1, 5, NULL, three_bytes, 8, three_ends, 3, results, &status) == BPFHOST_DONE);
    CHECK(status == 0 && results[0] == 3 && results[1] == 0 && results[2] == 5);
    CHECK(bpfhost_run_packets(host, 1, 4, NULL, three_bytes, 8, three_ends, 2, results, &status) == BPFHOST_DONE);
    CHECK(status == 0 && results[0] == 1 && results[1] == 2 && results[2] == 5);
    CHECK(count_once(host, 1) == 3);
    CHECK(bpfhost_run_packets(host, 1, 4, NULL, NULL, 0, NULL, 0, NULL, &status) == BPFHOST_DONE && status == 0);
    CHECK(count_once(host, 1) == 4);
    /* What is refused is refused before the first packet. */
    refuses_packets(host, 2, 4, three_ends, 3, -1);
    refuses_packets(host, 1, 6, three_ends, 3, -9);
    refuses_packets(host, 1, 3, three_ends, 3, -22);
    refuses_packets(host, 1, 4, behind, 2, -22);
    refuses_packets(host, 1, 4, backward, 3, -22);
    CHECK(bpfhost_run_packets(host, 1, 4, NULL, long_packet, end, &end, 1, results, &status) == BPFHOST_DONE && status == -7);
    CHECK(bpfhost_run_packets(host, 1, 4, NULL, two_packets, 65538, too_long, 2, results, &status) == BPFHOST_DONE && status == -7);
    CHECK(count_once(host, 1) == 5);
    /* Nulls, lengths and overlaps. */
    status = 1;
    CHECK(bpfhost_run_packets(NULL, 1, 5, NULL, three_bytes, 8, three_ends, 3, results, &status) == BPFHOST_ERR_NULL);
    CHECK(bpfhost_run_packets(host, 1, 5, NULL, NULL, 8, three_ends, 3, results, &status) == BPFHOST_ERR_NULL);
    CHECK(bpfhost_run_packets(host, 1, 5, NULL, three_bytes, 8, NULL, 3, results, &status) == BPFHOST_ERR_NULL);
    CHECK(bpfhost_run_packets(host, 1, 5, NULL, three_bytes, 8, three_ends, 3, NULL, &status) == BPFHOST_ERR_NULL);
    CHECK(bpfhost_run_packets(host, 1, 5, NULL, three_bytes, 8, three_ends, 3, results, NULL) == BPFHOST_ERR_NULL);
    CHECK(bpfhost_run_packets(host, 1, 5, NULL, three_bytes, SIZE_MAX, three_ends, 3, results, &status) == BPFHOST_ERR_LENGTH);
    CHECK(bpfhost_run_packets(host, 1, 5, NULL, three_bytes, 8, three_ends, SIZE_MAX / 4, results, &status) == BPFHOST_ERR_LENGTH);
    CHECK(bpfhost_run_packets(host, 1, 5, NULL, results, 8, three_ends, 2, results, &status) == BPFHOST_ERR_OVERLAP);
    CHECK(bpfhost_run_packets(host, 1, 5, NULL, &status, 4, three_ends, 1, results, &status) == BPFHOST_ERR_OVERLAP);
    CHECK(status == 1);
    bpfhost_free(host);
}

/* Eight packets of one byte each, and for each of them a context. */
enum { MANY = 8 };
static const uint8_t many_bytes[MANY];
static size_t many_ends[MANY];
static bpfhost_context many_contexts[MANY];
static uint32_t many_results[MANY];

/* A batch of the eight with this bound, by each of the three functions; each time so many are run, and the results after theirs are kept. */
static void runs_bounded(bpfhost *host, uint32_t fd, uint64_t bound, size_t wanted)
{
    for (int way = 0; way < 3; way++) {
        uint64_t before = count_once(host, 1);
        int32_t status = 1;
        size_t ran = 99;
        int code;
        memset(many_results, 0x5a, sizeof many_results);
        if (way == 0)
            code = bpfhost_run_bounded(host, 1, fd, NULL, many_bytes, MANY, many_ends, MANY, bound, many_results, &status, &ran);
        else if (way == 1)
            code = bpfhost_run_bounded_with(host, 1, fd, many_contexts, MANY, many_bytes, MANY, many_ends, MANY, bound, many_results,
                                            &status, &ran);
        else
            code = bpfhost_run_bounded_sized(host, 1, fd, many_contexts, 8, MANY, many_bytes, MANY, many_ends, MANY, bound, many_results,
                                             &status, &ran);
        CHECK(code == BPFHOST_DONE && status == 0 && ran == wanted);
        for (size_t i = 0; i < MANY; i++)
            CHECK(many_results[i] == (i < wanted ? (uint32_t)(before + 1 + i) : 0x5a5a5a5a));
        CHECK(count_once(host, 1) == before + wanted + 1);
    }
}

/* A batch of the eight with this bound is refused with this status, and none is run. */
static void refuses_bounded(bpfhost *host, uint16_t tenant, uint32_t fd, uint64_t bound, int32_t wanted)
{
    int32_t status = 1;
    size_t ran = 99;
    memset(many_results, 0x5a, sizeof many_results);
    CHECK(bpfhost_run_bounded(host, tenant, fd, NULL, many_bytes, MANY, many_ends, MANY, bound, many_results, &status, &ran) == BPFHOST_DONE);
    CHECK(status == wanted && ran == 0);
    for (size_t i = 0; i < MANY; i++)
        CHECK(many_results[i] == 0x5a5a5a5a);
}

/* The longest path of the counter has six instructions up to its branch, and four from there on. */
static void checks_bounds(bpfhost *host)
{
    const uint64_t cost = 10 + BPFHOST_CALL_WEIGHT; /* ten instructions, one of them a call */
    uint32_t results[MANY];
    int32_t status = 1;
    size_t ran = 99;
    for (size_t i = 0; i < MANY; i++)
        many_ends[i] = i + 1;
    open_counter(host, 1);
    for (uint64_t packets = 1; packets <= MANY + 1; packets++) {
        size_t all = packets < MANY ? (size_t)packets : MANY;
        runs_bounded(host, 4, packets * cost, all);
        runs_bounded(host, 4, packets * cost + cost - 1, all);
        runs_bounded(host, 4, packets * cost - 1, packets == 1 ? 1 : packets <= MANY ? all - 1 : MANY);
    }
    runs_bounded(host, 4, 0, MANY);
    runs_bounded(host, 4, 1, 1);
    runs_bounded(host, 4, UINT64_MAX, MANY);
    CHECK(bpfhost_run_bounded(host, 1, 4, NULL, NULL, 0, NULL, 0, 1, NULL, &status, &ran) == BPFHOST_DONE && status == 0);
    /* What is refused is refused with any bound; a packet after those that are run is not looked at. */
    refuses_bounded(host, 2, 4, cost, -1);
    refuses_bounded(host, 1, 5, cost, -9);
    refuses_bounded(host, 1, 3, cost, -22);
    many_ends[3] = MANY + 1;
    runs_bounded(host, 4, 3 * cost, 3);
    refuses_bounded(host, 1, 4, 4 * cost, -22);
    refuses_bounded(host, 1, 4, 0, -22);
    many_ends[3] = 4;
    CHECK(bpfhost_run_bounded_with(host, 1, 4, many_contexts, 2, many_bytes, MANY, many_ends, MANY, cost, results, &status, &ran)
          == BPFHOST_DONE);
    CHECK(status == -22 && ran == 0);
    /* The number of packets is an object too. */
    status = 1, ran = 99;
    CHECK(bpfhost_run_bounded(host, 1, 4, NULL, many_bytes, MANY, many_ends, MANY, 1, results, &status, NULL) == BPFHOST_ERR_NULL);
    CHECK(bpfhost_run_bounded(NULL, 1, 4, NULL, many_bytes, MANY, many_ends, MANY, 1, results, &status, &ran) == BPFHOST_ERR_NULL);
    CHECK(bpfhost_run_bounded(host, 1, 4, NULL, many_bytes, MANY, many_ends, SIZE_MAX, 1, results, &status, &ran) == BPFHOST_ERR_LENGTH);
    CHECK(bpfhost_run_bounded(host, 1, 4, NULL, many_bytes, MANY, many_ends, MANY, 1, results, &status, many_ends) == BPFHOST_ERR_OVERLAP);
    CHECK(bpfhost_run_bounded(host, 1, 4, NULL, &ran, 8, many_ends, MANY, 1, results, &status, &ran) == BPFHOST_ERR_OVERLAP);
    CHECK(bpfhost_run_bounded(host, 1, 4, NULL, many_bytes, MANY, many_ends, MANY, 1, results, &status, (size_t *)(void *)host)
          == BPFHOST_ERR_OVERLAP);
    CHECK(bpfhost_run_bounded(host, 1, 4, NULL, many_bytes, MANY, many_ends, MANY, 1, results, (int32_t *)(void *)&ran, &ran)
          == BPFHOST_ERR_OVERLAP);
    CHECK(status == 1 && ran == 99);
}

/* What is lent is no frame and no packet of its host, also after other calls; copies are, and what another host has lent. */
static void checks_lent(bpfhost *host)
{
    uint8_t frame[64], copy[2 * sizeof close_nothing];
    const uint8_t *payload;
    bpfhost *other = NULL;
    bpfhost_bytes lent, part;
    bpfhost_reply reply;
    bpfhost_result result;
    bpfhost_packet packet;
    size_t length, written = 7;
    int32_t status = 1;
    uint32_t out = 7;
    open_counter(host, 1);
    length = bpfhost_frame_map_lookup(frame, sizeof frame, 1, 3, "\0\0\0", 4);
    CHECK(bpfhost_handle_lent(host, frame, length, &lent) == BPFHOST_DONE && lent.length == 20);
    payload = lent.at + 12;
    CHECK(bpfhost_handle(host, payload, 8, room, sizeof room, &written) == BPFHOST_ERR_LENT && written == 7);
    CHECK(bpfhost_handle_lent(host, payload, 8, &lent) == BPFHOST_ERR_LENT && lent.at != NULL && lent.length == 0);
    CHECK(bpfhost_ask(host, payload, 8, &reply) == BPFHOST_ERR_LENT);
    CHECK(bpfhost_ask_sized(host, payload, 8, &reply, sizeof reply) == BPFHOST_ERR_LENT);
    CHECK(bpfhost_restore(host, 1, payload, 8, &status) == BPFHOST_ERR_LENT);
    CHECK(bpfhost_run_packets(host, 1, 4, NULL, payload, 8, three_ends + 2, 1, &out, &status) == BPFHOST_ERR_LENT);
    CHECK(bpfhost_prog_test_run(host, 1, 4, NULL, payload, 8, &result) == BPFHOST_ERR_LENT);
    packet.at = payload;
    packet.length = 8;
    CHECK(bpfhost_run_scattered(host, 1, 4, NULL, 0, &packet, 1, NULL, 0, &out, &status) == BPFHOST_ERR_LENT);
    CHECK(status == 1 && out == 7);
    /* A key or a value may be lent: it is copied before the call. */
    CHECK(bpfhost_map_update(host, 1, 3, "\0\0\0", 4, payload, 8, BPFHOST_ANY, &result) == BPFHOST_DONE && result.status == 0);
    memcpy(copy, close_nothing, 8);
    CHECK(bpfhost_handle(host, copy, 8, room, sizeof room, &written) == BPFHOST_DONE && written == 12);
    CHECK(bpfhost_handle(host, payload, 8, room, sizeof room, &written) == BPFHOST_ERR_LENT);
    CHECK(bpfhost_new(&other, 1, &test_seed) == BPFHOST_DONE);
    CHECK(bpfhost_ask(other, payload, 8, &reply) == BPFHOST_DONE);
    bpfhost_free(other);
    CHECK(bpfhost_save_part(host, 1, 0, &part) == BPFHOST_DONE && part.length != 0);
    CHECK(bpfhost_restore(host, 1, part.at, part.length, &status) == BPFHOST_ERR_LENT && status == 1);
    CHECK(bpfhost_ask(host, part.at + part.length - 1, 1, &reply) == BPFHOST_ERR_LENT);
    CHECK(bpfhost_save_part(host, 1, 99, &part) == BPFHOST_ERR_NO_PART);
    CHECK(count_once(host, 1) == 1);
}

int main(void)
{
    bpfhost *host = NULL;
    checks_new();
    checks_handles();
    CHECK(bpfhost_new(&host, 2, &test_seed) == BPFHOST_DONE);
    checks_nulls_and_lengths(host);
    checks_overlaps(host);
    checks_replies(host);
    checks_frames(host);
    checks_longest_program(host);
    checks_packets();
    bpfhost_free(host);
    CHECK(bpfhost_new(&host, 2, &test_seed) == BPFHOST_DONE);
    checks_bounds(host);
    bpfhost_free(host);
    CHECK(bpfhost_new(&host, 2, &test_seed) == BPFHOST_DONE);
    checks_lent(host);
    bpfhost_free(host);
    puts("calls: each code, and each frame by its bytes");
    return 0;
}
