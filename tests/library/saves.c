/* Tenants with random histories are saved and restored on another host, under the same or another number, part by part or from a buffer, while
 * other tenants are served. Then both hosts are given the same random frames, and have to give the same replies. usage: saves [HISTORIES] [SEED] */
#include "common.h"
#include <string.h>

#define TENANTS 3
#define FIRST 3
#define MOST 64
#define KEYS_PER_SAVE_PART 1024
#define LONGEST_KEY 12
#define LONGEST_VALUE 16

/* What a descriptor of the tenant was opened as; what is no map has sizes all the same, for frames that are refused. */
struct opened {
    uint32_t key_size, value_size;
    bool changes_maps; /* a program that does */
};

static uint64_t state;
static struct opened open_at[FIRST + MOST];
static uint8_t frame[1024];
static uint8_t first_room[BPFHOST_LONGEST_REPLY], second_room[BPFHOST_LONGEST_REPLY];
static long kept_by_programs, full_tables, changed_by_runs;

static uint32_t below(uint32_t count)
{
    return (uint32_t)(random_number(&state) >> 16) % count;
}

/* A descriptor: mostly one of the lower ones, and now and then any, open or not. */
static uint32_t some_descriptor(void)
{
    return FIRST + below(below(16) == 0 ? MOST + 1 : 8);
}

/* Few keys of a size, so that they are met again. */
static void some_key(uint8_t *key, uint32_t size)
{
    memset(key, 0, LONGEST_KEY);
    key[0] = (uint8_t)below(10);
    if (size > 4)
        key[size - 1] = key[0] / 3;
}

static size_t create_frame(uint16_t tenant)
{
    bool is_array = below(3) == 0;
    uint32_t key_size = is_array ? 4 : 1 + below(LONGEST_KEY);
    return bpfhost_frame_map_create(frame, sizeof frame, tenant, is_array ? BPFHOST_ARRAY : BPFHOST_HASH, key_size,
                                    1 + below(LONGEST_VALUE), 1 + below(8), 0);
}

/* Puts or deletes a key of the map of a descriptor: the key and the value are made of the context's mark. */
static const uint8_t changes[15 * 8] = {
    0x61, 0x16, 0x08, 0x00, 0x00, 0x00, 0x00, 0x00, /* r6 = *(u32 *)(r1 + 8) */
    0x7a, 0x0a, 0xf0, 0xff, 0x00, 0x00, 0x00, 0x00, /* *(u64 *)(r10 - 16) = 0 */
    0x7a, 0x0a, 0xf8, 0xff, 0x00, 0x00, 0x00, 0x00, /* *(u64 *)(r10 - 8) = 0 */
    0x73, 0x6a, 0xf0, 0xff, 0x00, 0x00, 0x00, 0x00, /* *(u8 *)(r10 - 16) = r6 */
    0x7b, 0x6a, 0xe0, 0xff, 0x00, 0x00, 0x00, 0x00, /* *(u64 *)(r10 - 32) = r6 */
    0x7b, 0x6a, 0xe8, 0xff, 0x00, 0x00, 0x00, 0x00, /* *(u64 *)(r10 - 24) = r6 */
    0x18, 0x11, 0x00, 0x00, 0x03, 0x00, 0x00, 0x00, /* r1 = map_fd 3 ll */
    0x00, 0x00, 0x00, 0x00, 0x00, 0x00, 0x00, 0x00,
    0xbf, 0xa2, 0x00, 0x00, 0x00, 0x00, 0x00, 0x00, /* r2 = r10 */
    0x07, 0x02, 0x00, 0x00, 0xf0, 0xff, 0xff, 0xff, /* r2 += -16 */
    0xbf, 0xa3, 0x00, 0x00, 0x00, 0x00, 0x00, 0x00, /* r3 = r10 */
    0x07, 0x03, 0x00, 0x00, 0xe0, 0xff, 0xff, 0xff, /* r3 += -32 */
    0xb7, 0x04, 0x00, 0x00, 0x00, 0x00, 0x00, 0x00, /* r4 = 0 */
    0x85, 0x00, 0x00, 0x00, 0x02, 0x00, 0x00, 0x00, /* call 2, or 3 */
    0x95, 0x00, 0x00, 0x00, 0x00, 0x00, 0x00, 0x00, /* exit */
};

/* A program that counts in the array of a descriptor, puts or deletes a key of its map, or has no map. */
static size_t load_frame(uint16_t tenant)
{
    uint8_t slots[sizeof changes];
    uint32_t kind = below(4);
    size_t size = kind == 0 ? sizeof answers_length : kind == 1 ? sizeof counts : sizeof changes;
    memcpy(slots, kind == 0 ? answers_length : kind == 1 ? counts : changes, size);
    if (kind == 1)
        bpfhost_put32(slots + 8 + 4, some_descriptor());
    if (kind >= 2) {
        bpfhost_put32(slots + 6 * 8 + 4, some_descriptor());
        bpfhost_put32(slots + 13 * 8 + 4, kind);
    }
    return bpfhost_frame_prog_load(frame, sizeof frame, tenant, BPFHOST_SOCKET_FILTER, slots, size / 8);
}

/* A run of the program at a descriptor, with a mark for its keys. */
static size_t run_frame(uint16_t tenant, uint32_t fd)
{
    const bpfhost_context context = {0, below(10), 0, 0, 0, 0, 0, 0, 0, 0};
    return bpfhost_frame_test_run_head(frame, sizeof frame, tenant, fd, &context);
}

static size_t update_frame(uint16_t tenant, uint32_t fd)
{
    const struct opened *map = &open_at[fd < FIRST + MOST ? fd : FIRST];
    uint8_t key[LONGEST_KEY], value[LONGEST_VALUE];
    uint64_t bits = random_number(&state);
    some_key(key, map->key_size);
    memset(value, (int)(bits >> 8), sizeof value);
    return bpfhost_frame_map_update(frame, sizeof frame, tenant, fd, below(8) == 0 ? 1 + below(3) : 0, key, map->key_size,
                                    value, map->value_size);
}

/* A frame of a key of the map that a descriptor may name. */
static size_t key_frame(uint16_t tenant, uint32_t fd, uint32_t command)
{
    uint8_t key[LONGEST_KEY];
    uint32_t size = open_at[fd < FIRST + MOST ? fd : FIRST].key_size;
    some_key(key, size);
    if (command == BPFHOST_MAP_LOOKUP)
        return bpfhost_frame_map_lookup(frame, sizeof frame, tenant, fd, key, size);
    if (command == BPFHOST_MAP_DELETE)
        return bpfhost_frame_map_delete(frame, sizeof frame, tenant, fd, key, size);
    return bpfhost_frame_map_next_key(frame, sizeof frame, tenant, fd, key, below(4) == 0 ? 0 : size);
}

/* A random frame of a tenant: the length. `opens` of 16 open something. */
static size_t some_frame(uint16_t tenant, uint32_t opens)
{
    uint32_t fd = some_descriptor(), kind = below(16);
    if (kind < opens)
        return below(2) == 0 ? load_frame(tenant) : create_frame(tenant);
    switch (kind) {
    case 10: return bpfhost_frame_close(frame, sizeof frame, tenant, fd);
    case 11: return key_frame(tenant, fd, BPFHOST_MAP_LOOKUP);
    case 12: return key_frame(tenant, fd, BPFHOST_MAP_DELETE);
    case 13: return key_frame(tenant, fd, BPFHOST_MAP_NEXT_KEY);
    case 8: case 9: case 14: return run_frame(tenant, fd);
    default: return update_frame(tenant, fd);
    }
}

/* Notes what a reply has opened. */
static void note(size_t length, int32_t status)
{
    struct opened made = {4, 8, false};
    uint16_t command = bpfhost_get16(frame + 2);
    if (status < FIRST || (command != BPFHOST_MAP_CREATE && command != BPFHOST_PROG_LOAD))
        return;
    CHECK(status < FIRST + MOST);
    if (command == BPFHOST_MAP_CREATE) {
        made.key_size = bpfhost_get32(frame + 8);
        made.value_size = bpfhost_get32(frame + 12);
    }
    made.changes_maps = length == 8 + sizeof changes;
    open_at[status] = made;
}

static int32_t tell(bpfhost *host, size_t length)
{
    bpfhost_reply reply = ask(host, frame, length);
    if (reply.command == BPFHOST_PROG_TEST_RUN && reply.status == 0 && reply.result == 0)
        changed_by_runs += open_at[bpfhost_get32(frame + 4)].changes_maps;
    note(length, reply.status);
    return reply.status;
}

/* A history: some open more and more, some close what they open while programs keep its maps. */
static void live(bpfhost *host, uint16_t tenant)
{
    uint32_t frames = 20 + below(180), opens = 1 + below(6);
    for (size_t fd = 0; fd < FIRST + MOST; fd++)
        open_at[fd] = (struct opened){4, 8, false};
    if (below(4) == 0) {
        open_counter(host, tenant);
        CHECK(count_once(host, tenant) == 1);
        CHECK(tell(host, bpfhost_frame_close(frame, sizeof frame, tenant, FIRST)) == 0);
        kept_by_programs++;
    }
    for (uint32_t i = 0; i < frames; i++)
        tell(host, some_frame(tenant, opens));
    if (below(16) == 0) {
        while (tell(host, load_frame(tenant)) != -24)
            tell(host, some_frame(tenant, opens));
        full_tables++;
    }
}

/* Where a sink restores a tenant; or, with no host, a buffer that it appends to. `served` is the host that is saved. */
struct target {
    bpfhost *host, *served;
    uint16_t tenant, other; /* the number here and there */
    uint8_t *bytes;
    size_t length, parts, stops_after;
};

static void restores(bpfhost *host, uint16_t tenant, uint16_t other, const uint8_t *frames, size_t length)
{
    int32_t status = -1;
    if (tenant == other && below(2) == 0)
        CHECK(bpfhost_restore(host, tenant, frames, length, &status) == BPFHOST_DONE);
    else
        CHECK(bpfhost_restore_as(host, other, frames, length, &status) == BPFHOST_DONE);
    CHECK(status >= 0);
}

/* Takes a part, and then serves another tenant of the host that is saved. */
static bool takes(void *context, const uint8_t *frames, size_t length)
{
    struct target *target = (struct target *)context;
    CHECK(frames != NULL && length <= BPFHOST_LONGEST_PART);
    if (target->host != NULL)
        restores(target->host, target->tenant, target->other, frames, length);
    else {
        target->bytes = (uint8_t *)realloc(target->bytes, target->length + length);
        CHECK(target->bytes != NULL);
        memcpy(target->bytes + target->length, frames, length);
    }
    target->length += length;
    target->parts++;
    ask(target->served, frame, some_frame((uint16_t)((target->tenant + 1) % TENANTS), 3));
    return target->parts != target->stops_after;
}

/* Saves a tenant of one host, and restores it on the other: part by part, or from one buffer. Returns the bytes. */
static size_t moves(bpfhost *from, bpfhost *to, uint16_t tenant, uint16_t other)
{
    struct target target = {below(2) == 0 ? to : NULL, from, tenant, other, NULL, 0, 0, 0};
    bpfhost_bytes none;
    CHECK(bpfhost_save(from, tenant, takes, &target) == BPFHOST_DONE);
    CHECK(target.parts >= 2 && target.parts <= 2 + MOST + 16 + 47);
    CHECK(bpfhost_save_part(from, tenant, target.parts, &none) == BPFHOST_ERR_NO_PART);
    if (target.host == NULL)
        restores(to, tenant, other, target.bytes, target.length);
    free(target.bytes);
    return target.length;
}

/* Two hosts are given the same random frames, each of a tenant of its own, and have to give the same replies but for the tenant. */
static void reply_alike(bpfhost *first, bpfhost *second, uint16_t tenant, uint16_t other, uint32_t frames)
{
    for (uint32_t i = 0; i < frames; i++) {
        size_t length = some_frame(tenant, 3), one = 0, two = 0;
        bpfhost_reply reply;
        CHECK(bpfhost_handle(first, frame, length, first_room, sizeof first_room, &one) == BPFHOST_DONE);
        bpfhost_put16(frame, other);
        CHECK(bpfhost_handle(second, frame, length, second_room, sizeof second_room, &two) == BPFHOST_DONE);
        CHECK(bpfhost_get16(second_room + 4) == other);
        bpfhost_put16(second_room + 4, tenant);
        CHECK(one == two && memcmp(first_room, second_room, one) == 0);
        CHECK(bpfhost_read_reply(first_room, one, &reply) == BPFHOST_DONE);
        note(length, reply.status);
    }
}

/* Frames of the first two parts of tenant 1 are given to tenant 2 of a host: if something is wrong with one of them, none is handled. */
static void checks_renumbering(bpfhost *host, uint8_t *saved, size_t length)
{
    static uint8_t long_frame[4 + BPFHOST_LONGEST_FRAME + 9];
    int32_t status = 5;
    size_t last = 0;
    CHECK(bpfhost_restore_as(host, 2, saved, length - 1, &status) == BPFHOST_ERR_BAD_FRAMES && status == 5);
    CHECK(bpfhost_restore_as(host, 2, saved, 7, &status) == BPFHOST_ERR_BAD_FRAMES && status == 5);
    while (last + 4 + bpfhost_get32(saved + last) < length)
        last += 4 + bpfhost_get32(saved + last);
    bpfhost_put16(saved + last + 4, 0); /* the last frame is another tenant's */
    CHECK(bpfhost_restore_as(host, 2, saved, length, &status) == BPFHOST_ERR_BAD_FRAMES && status == 5);
    bpfhost_put16(saved + last + 4, 1);
    CHECK(ask(host, frame, bpfhost_frame_close(frame, sizeof frame, 2, FIRST)).status == -9);
    CHECK(bpfhost_restore_as(host, TENANTS, saved, length, &status) == BPFHOST_ERR_REFUSED && status == -1);
    CHECK(bpfhost_restore_as(host, 2, saved, length, &status) == BPFHOST_DONE && status >= 0);
    CHECK(bpfhost_restore_as(host, 2, saved, length, &status) == BPFHOST_ERR_REFUSED && status == -24);
    CHECK(bpfhost_restore_as(host, 2, NULL, 0, &status) == BPFHOST_DONE && status == 0);
    CHECK(bpfhost_restore_as(host, 2, NULL, 1, &status) == BPFHOST_ERR_NULL);
    /* A frame that is longer than any may be is refused as one, and is not copied as a whole. */
    bpfhost_put32(long_frame, sizeof long_frame - 4);
    CHECK(bpfhost_restore_as(host, 2, long_frame, sizeof long_frame, &status) == BPFHOST_ERR_REFUSED && status == -7);
}

/* The codes of a save and of a restore: what stops them, and what has changed then. */
static void checks_codes(void)
{
    struct target target = {NULL, NULL, 1, 1, NULL, 0, 0, 2};
    bpfhost *first = NULL, *second = NULL;
    bpfhost_bytes lent = {frame, 7};
    bpfhost_result result;
    int32_t status = 5;
    size_t length;
    CHECK(bpfhost_new(&first, TENANTS, &test_seed) == BPFHOST_DONE && bpfhost_new(&second, TENANTS, &test_seed) == BPFHOST_DONE);
    open_counter(first, 1);
    target.served = first;
    CHECK(bpfhost_save(first, 1, NULL, NULL) == BPFHOST_ERR_NULL && bpfhost_save(NULL, 1, takes, &target) == BPFHOST_ERR_NULL);
    CHECK(bpfhost_save(first, TENANTS, takes, &target) == BPFHOST_ERR_NO_PART && target.parts == 0);
    CHECK(bpfhost_save_part(first, TENANTS, 0, &lent) == BPFHOST_ERR_NO_PART && lent.at == frame && lent.length == 7);
    CHECK(bpfhost_save_part(first, 1, SIZE_MAX, &lent) == BPFHOST_ERR_NO_PART && lent.length == 7);
    CHECK(bpfhost_save(first, 1, takes, &target) == BPFHOST_ERR_STOPPED && target.parts == 2);
    /* Frames of another tenant and bytes that end inside a frame are not handled. */
    CHECK(bpfhost_restore(second, 0, target.bytes, target.length, &status) == BPFHOST_ERR_BAD_FRAMES && status == 0);
    for (length = 1; length < 28; length++)
        CHECK(bpfhost_restore(second, 1, target.bytes, length, &status) == BPFHOST_ERR_BAD_FRAMES && status == 0);
    CHECK(bpfhost_restore(second, 1, NULL, 0, &status) == BPFHOST_DONE && status == 0);
    CHECK(bpfhost_restore(second, 1, NULL, 1, &status) == BPFHOST_ERR_NULL);
    CHECK(bpfhost_restore(second, 1, target.bytes, 29, &status) == BPFHOST_ERR_BAD_FRAMES && status == FIRST);
    /* One program is open now: the tenant is new no more, and is new again when that is closed. */
    CHECK(bpfhost_restore(second, 1, target.bytes, target.length, &status) == BPFHOST_ERR_REFUSED && status == -24);
    CHECK(bpfhost_close_all(second, 1, &result) == BPFHOST_DONE && result.status == 0 && result.result == MOST);
    CHECK(bpfhost_close_all(second, 1, &result) == BPFHOST_DONE && result.status == 0 && result.result == 0);
    CHECK(bpfhost_close_all(second, TENANTS, &result) == BPFHOST_DONE && result.status == -1 && result.result == 0);
    CHECK(bpfhost_close_all(NULL, 1, &result) == BPFHOST_ERR_NULL && bpfhost_close_all(second, 1, NULL) == BPFHOST_ERR_NULL);
    checks_renumbering(second, target.bytes, target.length);
    free(target.bytes);
    target = (struct target){second, first, 1, 1, NULL, 0, 0, 0};
    CHECK(bpfhost_save(first, 1, takes, &target) == BPFHOST_DONE && target.parts == 5);
    CHECK(count_once(first, 1) == 1 && count_once(second, 1) == 1 && count_once(second, 1) == 2);
    bpfhost_free(first);
    bpfhost_free(second);
}

static size_t frames_in(bpfhost_bytes part)
{
    size_t at = 0, count = 0;
    for (; at < part.length; count++)
        at += 4 + bpfhost_get32(part.at + at);
    CHECK(at == part.length);
    return count;
}

/* How many frames a part has of a tenant with one map, if so many of its keys are in no part yet. */
static size_t frames_of_part(size_t part, uint32_t keys)
{
    if (part == 0)
        return MOST;
    if (part == 1)
        return 2;
    return keys == 0 ? MOST - 1 : keys < KEYS_PER_SAVE_PART ? keys : KEYS_PER_SAVE_PART;
}

static void puts_keys(bpfhost *host, uint32_t keys)
{
    const bpfhost_map_attr attr = {BPFHOST_HASH, 4, 8, 4096, 0};
    bpfhost_result result;
    CHECK(bpfhost_map_create(host, 1, &attr, &result) == BPFHOST_DONE && result.status == FIRST);
    for (uint32_t key = 0; key < keys; key++) {
        uint64_t value = 3 * key + 1;
        CHECK(bpfhost_map_update(host, 1, FIRST, &key, sizeof key, &value, sizeof value, BPFHOST_ANY, &result) == BPFHOST_DONE);
        CHECK(result.status == 0);
    }
}

/* The keys of a map are in parts of at most 1,024, in no more parts than they need, and the restored map has them in their order. */
static void checks_parts_of_keys(uint32_t keys, size_t parts)
{
    bpfhost *first = NULL, *second = NULL;
    bpfhost_bytes one, two;
    uint32_t left = keys;
    int32_t status;
    CHECK(bpfhost_new(&first, TENANTS, &test_seed) == BPFHOST_DONE && bpfhost_new(&second, TENANTS, &test_seed) == BPFHOST_DONE);
    puts_keys(first, keys);
    for (size_t part = 0; part < parts; part++) {
        CHECK(bpfhost_save_part(first, 1, part, &one) == BPFHOST_DONE && frames_in(one) == frames_of_part(part, left));
        CHECK(bpfhost_restore(second, 1, one.at, one.length, &status) == BPFHOST_DONE && status >= 0);
        if (part >= 2 && left > 0)
            left -= (uint32_t)frames_in(one);
    }
    CHECK(left == 0 && bpfhost_save_part(first, 1, parts, &one) == BPFHOST_ERR_NO_PART);
    for (size_t part = 0; part < parts; part++) {
        CHECK(bpfhost_save_part(first, 1, part, &one) == BPFHOST_DONE && bpfhost_save_part(second, 1, part, &two) == BPFHOST_DONE);
        CHECK(one.length == two.length && memcmp(one.at, two.at, one.length) == 0);
    }
    bpfhost_free(first);
    bpfhost_free(second);
}

int main(int argc, char **argv)
{
    long histories = argc > 1 ? atol(argv[1]) : 10000;
    size_t bytes = 0;
    state = argc > 2 ? strtoull(argv[2], NULL, 10) | 1 : 88172645463325252u;
    checks_codes();
    checks_parts_of_keys(0, 3);
    checks_parts_of_keys(1, 4);
    checks_parts_of_keys(KEYS_PER_SAVE_PART, 4);
    checks_parts_of_keys(KEYS_PER_SAVE_PART + 1, 5);
    checks_parts_of_keys(4096, 7);
    for (long i = 0; i < histories; i++) {
        bpfhost *first = NULL, *second = NULL;
        uint16_t tenant = (uint16_t)below(TENANTS), other = (uint16_t)below(TENANTS);
        CHECK(bpfhost_new(&first, TENANTS, &test_seed) == BPFHOST_DONE);
        CHECK(bpfhost_new(&second, TENANTS, &test_seed) == BPFHOST_DONE);
        live(first, tenant);
        bytes += moves(first, second, tenant, other);
        reply_alike(first, second, tenant, other, 60);
        bpfhost_free(first);
        bpfhost_free(second);
    }
    CHECK(histories < 1000 || (kept_by_programs > histories / 8 && full_tables > histories / 64 && changed_by_runs > histories / 4));
    printf("saves: %ld histories restored from %zu bytes, with the same replies, two of three as another tenant (%ld closed maps kept by programs, %ld full tables,"
           " %ld maps changed by runs)\n", histories, bytes, kept_by_programs, full_tables, changed_by_runs);
    return 0;
}
