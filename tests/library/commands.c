/* Commands by one call each (bpfhost_map_create and so on), with the same frames on another host: 20,000 random ones of two tenants, with right
 * and wrong descriptors, sizes, keys and values. The status, the slot, the reason, the result and what is written have to be those of the
 * replies. Then what a caller can do wrong, which writes nothing.
 * usage: commands [COUNT] */
#include "common.h"
#include <string.h>

#define LONGEST 6000

/* r0 = the packet's length; exit */
static const uint8_t returns_length[16] = {0x61, 0x10, 0, 0, 0, 0, 0, 0, 0x95};
static bpfhost *host, *other;
static uint8_t frame[BPFHOST_LONGEST_FRAME + 64], key[LONGEST], value[LONGEST], written[LONGEST + 8];
static uint64_t state = 0x9e3779b97f4a7c15;

static size_t below(size_t most)
{
    return (size_t)(random_number(&state) % most);
}

/* The result of a command has to be the reply to its frame on the other host; what it wrote, the payload, and nothing after it. */
static void same(size_t length, int code, const bpfhost_result *out, size_t room)
{
    bpfhost_reply reply = ask(other, frame, length);
    size_t copied = reply.status == 0 && reply.command != BPFHOST_PROG_TEST_RUN ? reply.payload_length : 0;
    if (copied > room) {
        CHECK(code == BPFHOST_ERR_BUFFER_TOO_SMALL && written[0] == 0x5a && out->status == 77);
        return;
    }
    CHECK(code == BPFHOST_DONE && out->status == reply.status && out->result == reply.result && out->slot == reply.slot);
    CHECK(out->reason == reply.reason && out->length == copied);
    CHECK(copied == 0 || memcmp(written, reply.payload, copied) == 0);
    CHECK(written[copied] == 0x5a && written[LONGEST] == 0x5a);
}

static size_t any_size(size_t usual)
{
    static const size_t sizes[] = {0, 1, 4, 8, 512, 513, 4096, 4097, LONGEST};
    return below(8) == 0 ? sizes[below(sizeof sizes / sizeof *sizes)] : usual;
}

static void try_map(uint16_t tenant, uint32_t fd, bpfhost_result *out)
{
    size_t key_size = any_size(4), value_size = any_size(8), length;
    uint64_t flags = below(4);
    int code;
    key[0] = (uint8_t)below(6);
    value[0] = (uint8_t)below(256);
    switch (below(4)) {
    case 0:
        code = bpfhost_map_lookup(host, tenant, fd, key, key_size, written, value_size, out);
        length = bpfhost_frame_map_lookup(frame, sizeof frame, tenant, fd, key, key_size);
        break;
    case 1:
        code = bpfhost_map_get_next_key(host, tenant, fd, key, key_size, written, value_size, out);
        length = bpfhost_frame_map_next_key(frame, sizeof frame, tenant, fd, key, key_size);
        break;
    case 2:
        code = bpfhost_map_delete(host, tenant, fd, key, key_size, out);
        length = bpfhost_frame_map_delete(frame, sizeof frame, tenant, fd, key, key_size);
        break;
    default:
        code = bpfhost_map_update(host, tenant, fd, key, key_size, value, value_size, flags, out);
        length = bpfhost_frame_map_update(frame, sizeof frame, tenant, fd, flags, key, key_size, value, value_size);
    }
    same(length, code, out, value_size);
}

static void try_create(uint16_t tenant, bpfhost_result *out)
{
    const bpfhost_map_attr attr = {(uint32_t)below(4), (uint32_t)any_size(4), (uint32_t)any_size(8), (uint32_t)any_size(16), below(9) == 0};
    int code = bpfhost_map_create(host, tenant, &attr, out);
    size_t length = bpfhost_frame_map_create(frame, sizeof frame, tenant, attr.type, attr.key_size, attr.value_size, attr.entries, attr.flags);
    same(length, code, out, 0);
}

/* A program that returns the length, one that counts in the map of descriptor 3, one that is refused, or one of too many slots. */
static void try_load(uint16_t tenant, bpfhost_result *out)
{
    static const uint8_t many[5000 * 8] = {0};
    const size_t which = below(16), slots[] = {sizeof returns_length / 8, sizeof counts / 8, 1, below(4) == 0 ? 5000 : 600};
    const uint8_t *programs[] = {returns_length, counts, returns_length, many};
    size_t of = which < 3 ? which : which % 2, length;
    int code;
    if (below(64) == 0)
        of = 3;
    code = bpfhost_prog_load(host, tenant, BPFHOST_SOCKET_FILTER, programs[of], slots[of], out);
    length = bpfhost_frame_prog_load(frame, sizeof frame, tenant, BPFHOST_SOCKET_FILTER, programs[of], slots[of]);
    same(length, code, out, 0);
}

static void try_run(uint16_t tenant, uint32_t fd, bpfhost_result *out)
{
    const bpfhost_context context = {1, (uint32_t)below(1000), 3, 4, 5, 6, 7, 8, 9, 10}, *given = below(2) == 0 ? &context : NULL;
    static uint8_t packet[BPFHOST_LONGEST_PACKET + 1];
    size_t length = below(32) == 0 ? BPFHOST_LONGEST_PACKET + below(2) : below(100), frame_length;
    int code = bpfhost_prog_test_run(host, tenant, fd, given, packet, length, out);
    frame_length = bpfhost_frame_prog_test_run(frame, sizeof frame, tenant, fd, given, packet, length);
    same(frame_length, code, out, 0);
}

static void try_command(void)
{
    bpfhost_result out = {77, 77, 77, 77, 77};
    /* The host has the tenants 0 and 1. */
    uint16_t tenant = (uint16_t)(below(40) == 0 ? 2 + below(3) : below(2));
    uint32_t fd = (uint32_t)(3 + below(12));
    memset(written, 0x5a, sizeof written);
    switch (below(12)) {
    case 0:
        try_create(tenant, &out);
        break;
    case 1:
        try_load(tenant, &out);
        break;
    case 2:
        if (below(2) == 0)
            return;
        fd = (uint32_t)(3 + below(66));
        same(bpfhost_frame_close(frame, sizeof frame, tenant, fd), bpfhost_close(host, tenant, fd, &out), &out, 0);
        break;
    case 3:
    case 4:
        try_run(tenant, fd, &out);
        break;
    default:
        try_map(tenant, fd, &out);
    }
}

/* A host with a map of values of 8 bytes at 3, and a program at 4. */
static void open_map(void)
{
    const bpfhost_map_attr attr = {BPFHOST_HASH, 4, 8, 16, 0};
    bpfhost_result out;
    CHECK(bpfhost_new(&host, 1, &test_seed) == BPFHOST_DONE);
    CHECK(bpfhost_map_create(host, 0, &attr, &out) == BPFHOST_DONE && out.status == 3 && out.length == 0);
    CHECK(bpfhost_prog_load(host, 0, BPFHOST_SOCKET_FILTER, returns_length, 2, &out) == BPFHOST_DONE && out.status == 4);
    CHECK(bpfhost_map_update(host, 0, 3, "key1", 4, "value001", 8, BPFHOST_ANY, &out) == BPFHOST_DONE && out.status == 0);
}

/* A result that no call may have changed. */
static bool is_untouched(const bpfhost_result *out)
{
    return out->status == 77 && out->result == 77 && out->slot == 77 && out->reason == 77 && out->length == 77;
}

#define IS_REFUSED(wanted, call)                              \
    do {                                                      \
        CHECK((call) == (wanted) && is_untouched(&out));      \
        CHECK(memcmp(buffer, "........", 8) == 0);            \
    } while (0)

static void check_mistakes(void)
{
    const size_t too_long = (size_t)PTRDIFF_MAX + 1, long_enough = PTRDIFF_MAX - ((size_t)1 << 48);
    const void *far_away = (void *)((uintptr_t)1 << 48); /* no object lies there */
    bpfhost_result out = {77, 77, 77, 77, 77};
    uint8_t buffer[16] = "........";
    IS_REFUSED(BPFHOST_ERR_NULL, bpfhost_map_lookup(NULL, 0, 3, "key1", 4, buffer, 8, &out));
    IS_REFUSED(BPFHOST_ERR_NULL, bpfhost_map_lookup(host, 0, 3, "key1", 4, buffer, 8, NULL));
    IS_REFUSED(BPFHOST_ERR_NULL, bpfhost_map_lookup(host, 0, 3, NULL, 4, buffer, 8, &out));
    IS_REFUSED(BPFHOST_ERR_NULL, bpfhost_map_lookup(host, 0, 3, "key1", 4, NULL, 8, &out));
    IS_REFUSED(BPFHOST_ERR_BUFFER_TOO_SMALL, bpfhost_map_lookup(host, 0, 3, "key1", 4, NULL, 0, &out));
    IS_REFUSED(BPFHOST_ERR_BUFFER_TOO_SMALL, bpfhost_map_lookup(host, 0, 3, "key1", 4, buffer, 7, &out));
    IS_REFUSED(BPFHOST_ERR_BUFFER_TOO_SMALL, bpfhost_map_get_next_key(host, 0, 3, NULL, 0, buffer, 3, &out));
    IS_REFUSED(BPFHOST_ERR_LENGTH, bpfhost_map_lookup(host, 0, 3, "key1", too_long, buffer, 8, &out));
    IS_REFUSED(BPFHOST_ERR_LENGTH, bpfhost_map_update(host, 0, 3, "key1", 4, "value001", SIZE_MAX, 0, &out));
    IS_REFUSED(BPFHOST_ERR_NO_MEMORY, bpfhost_map_update(host, 0, 3, far_away, long_enough, far_away, long_enough, 0, &out));
    IS_REFUSED(BPFHOST_ERR_LENGTH, bpfhost_prog_load(host, 0, BPFHOST_SOCKET_FILTER, returns_length, SIZE_MAX / 4, &out));
    IS_REFUSED(BPFHOST_ERR_OVERLAP, bpfhost_map_lookup(host, 0, 3, buffer, 4, buffer + 2, 8, &out));
    IS_REFUSED(BPFHOST_ERR_OVERLAP, bpfhost_map_lookup(host, 0, 3, &out, 4, buffer, 8, &out));
    IS_REFUSED(BPFHOST_ERR_OVERLAP, bpfhost_prog_test_run(host, 0, 4, NULL, &out, 4, &out));
    IS_REFUSED(BPFHOST_ERR_OVERLAP, bpfhost_close(host, 0, 3, (bpfhost_result *)(void *)host));
    /* A buffer with more room than the value has. */
    CHECK(bpfhost_map_lookup(host, 0, 3, "key1", 4, buffer, sizeof buffer, &out) == BPFHOST_DONE && out.status == 0 && out.length == 8);
    CHECK(memcmp(buffer, "value001\0", 9) == 0);
    CHECK(bpfhost_map_get_next_key(host, 0, 3, NULL, 0, buffer, 4, &out) == BPFHOST_DONE && out.length == 4 && memcmp(buffer, "key1", 4) == 0);
    CHECK(bpfhost_map_get_next_key(host, 0, 3, "key1", 4, buffer, 4, &out) == BPFHOST_DONE && out.status == -2 && out.length == 0);
}

/* Attributes and contexts of another version of the header. */
static void check_sizes(void)
{
    uint32_t words[12] = {BPFHOST_ARRAY, 4, 8, 1, 0, 0, 0};
    bpfhost_result out = {77, 77, 77, 77, 77};
    CHECK(bpfhost_map_create_sized(host, 0, words, 16, &out) == BPFHOST_DONE && out.status == 5);
    CHECK(bpfhost_map_create_sized(host, 0, words, 28, &out) == BPFHOST_DONE && out.status == 6);
    CHECK(bpfhost_map_create_sized(host, 0, words, 12, &out) == BPFHOST_DONE && out.status == -22);
    out.status = 77;
    words[6] = 1;
    CHECK(bpfhost_map_create_sized(host, 0, words, 28, &out) == BPFHOST_ERR_TOO_BIG && out.status == 77);
    CHECK(bpfhost_map_create_sized(host, 0, words, 0, &out) == BPFHOST_ERR_SIZE && out.status == 77);
    CHECK(bpfhost_map_create_sized(host, 0, words, 18, &out) == BPFHOST_ERR_SIZE && out.status == 77);
    memset(words, 0, sizeof words);
    CHECK(bpfhost_prog_test_run_sized(host, 0, 4, words, 8, "abc", 3, &out) == BPFHOST_DONE && out.status == 0 && out.result == 3);
    CHECK(bpfhost_prog_test_run_sized(host, 0, 4, words, 48, "abc", 3, &out) == BPFHOST_DONE && out.status == 0 && out.result == 3);
    words[11] = 1;
    out.status = 77;
    CHECK(bpfhost_prog_test_run_sized(host, 0, 4, words, 48, "abc", 3, &out) == BPFHOST_ERR_TOO_BIG && out.status == 77);
    CHECK(bpfhost_prog_test_run_sized(host, 0, 4, words, 3, "abc", 3, &out) == BPFHOST_ERR_SIZE && out.status == 77);
}

int main(int argc, char **argv)
{
    long count = argc > 1 ? atol(argv[1]) : 20000;
    CHECK(bpfhost_new(&host, 2, &test_seed) == BPFHOST_DONE && bpfhost_new(&other, 2, &test_seed) == BPFHOST_DONE);
    for (long i = 0; i < count; i++)
        try_command();
    bpfhost_free(host);
    bpfhost_free(other);
    open_map();
    check_mistakes();
    check_sizes();
    bpfhost_free(host);
    printf("commands: %ld commands, each as its frame\n", count);
    return 0;
}
