/* For cbmc, the bounded model checker: each function of bpfhost.h that may write something, with its objects anywhere in a small arena, each
 * null or aligned for its type, and with all lengths and contents. What it shows of each:
 *   - if something is wrong, no proved function is called, the code says something that is wrong, and no byte of the arena changes,
 *     but those of a reply that bpfhost_handle_lent says it empties;
 *   - else the proved function is called once, with what the header says of it, and no byte changes but those that may be written;
 *   - no byte outside the arena is read or written.
 * tests/library/run gives it each function `try_..` below. What is tried has no loop, so that the bounds of cbmc leave nothing out. Not here:
 * bpfhost_random_seed, which asks the system; bpfhost_save and bpfhost_restore, which are loops over bpfhost_save_part and bpfhost_ask; and the
 * functions for frames that are bpfhost_frame_of_key by another name.
 *
 * An arena holds the objects of its function side by side, with few bytes more: the time grows with its size. */
#include <stddef.h>
#include <stdlib.h>
#include <string.h>
/* In place of memcpy, since cbmc's own takes long: it may change any byte that is copied to, in any way. */
static void copy(void *to, const void *from, size_t length);
#define memcpy(to, from, length) copy(to, from, length)
/* In place of calloc, to know whether it had memory. */
static void *given(size_t number, size_t size);
#define calloc(number, size) given(number, size)
#include <bpfhost.h>
#undef calloc

#define MOST_OBJECTS 7

/* Any value: cbmc knows functions without a body by this name. */
size_t nondet_size_t(void);
bool nondet_bool(void);
uint8_t nondet_uint8_t(void);
int32_t nondet_int32_t(void);

/* ---- what a function is given */

enum { READ = 0, WRITTEN = 1, MAY_BE_NULL = 2, NULL_IF_EMPTY = 4 };

static struct {
    size_t begin, length;
    bool is_written;
} objects[MOST_OBJECTS];
static size_t count;
static bool is_any_null, is_any_too_long, is_any_size_wrong, is_memory_refused, is_asked, is_made;
static uint32_t abi_of_library = BPFHOST_ABI;
static uint8_t *arena;
static size_t arena_size, watched; /* any byte of the arena */
static uint8_t byte_before;

static void lie_in(uint8_t *bytes, size_t size)
{
    arena = bytes;
    arena_size = size;
    watched = nondet_uint8_t();
    __CPROVER_assume(watched < size);
    byte_before = arena[watched];
}

/* A length that an object of the arena may have, or one that no object has. */
static size_t any_length(void)
{
    return nondet_bool() ? nondet_uint8_t() : nondet_size_t() | ((size_t)PTRDIFF_MAX + 1);
}

/* As many units as have this length, or more than any object has. */
static size_t any_units(size_t length, size_t unit)
{
    size_t units = length > PTRDIFF_MAX ? nondet_size_t() : nondet_uint8_t();
    __CPROVER_assume(length > PTRDIFF_MAX ? units > PTRDIFF_MAX / unit : units * unit == length);
    return units;
}

/* An object of this length; of any, if no object has it. */
static void *object(size_t length, size_t alignment, int uses)
{
    size_t begin = alignment * nondet_uint8_t(), which = count++;
    bool is_null = nondet_bool();
    is_any_too_long = is_any_too_long || length > PTRDIFF_MAX;
    if (is_null && !(uses & MAY_BE_NULL) && !(uses & NULL_IF_EMPTY && length == 0))
        is_any_null = true;
    if (is_null || length > PTRDIFF_MAX)
        length = is_null ? 0 : nondet_uint8_t();
    __CPROVER_assume(begin < arena_size && length <= arena_size - begin);
    objects[which].begin = begin;
    objects[which].length = length;
    objects[which].is_written = uses & WRITTEN;
    return is_null ? NULL : arena + begin;
}

#define ONE(pointer, uses) object(sizeof *(pointer), __alignof__(*(pointer)), uses)
#define BYTES(length, uses) object(length, 1, uses)

/* A host that has lent nothing. */
static bpfhost *any_host(void)
{
    bpfhost_memory *memory = (bpfhost_memory *)object(sizeof *memory, __alignof__(bpfhost_memory), WRITTEN);
    if (memory != NULL)
        __CPROVER_assume(memory->replies == NULL && memory->part.at == NULL && memory->part.length == 0);
    return (bpfhost *)(void *)memory;
}

#define HOST any_host()
/* What the memory of a host has after its handle. */
#define KEPT (sizeof(bpfhost_memory) - BPFHOST_HANDLE_SIZE)

/* Whether one object has a byte of another. */
static bool is_shared(size_t which)
{
    for (size_t i = 0; i < count; i++)
        if (i != which && objects[which].length != 0 && objects[i].length != 0
            && objects[which].begin < objects[i].begin + objects[i].length
            && objects[i].begin < objects[which].begin + objects[which].length)
            return true;
    return false;
}

static bool overlap(void)
{
    for (size_t i = 0; i < count; i++)
        if (objects[i].is_written && is_shared(i))
            return true;
    return false;
}

/* Whether the watched byte is one of the first of an object. */
static bool is_of(size_t which, size_t length)
{
    return watched >= objects[which].begin && watched - objects[which].begin < length;
}

static bool may_be_written(void)
{
    for (size_t i = 0; i < count; i++)
        if (objects[i].is_written && is_of(i, objects[i].length))
            return true;
    return false;
}

/* ---- what is shown after a call */

static void end(int code, bool asks)
{
    const bool do_overlap = overlap();
    if (is_any_null || is_any_too_long || is_any_size_wrong || do_overlap) {
        __CPROVER_assert(!is_asked, "no proved function is called if something is wrong");
        __CPROVER_assert((code == BPFHOST_ERR_NULL && is_any_null) || (code == BPFHOST_ERR_LENGTH && is_any_too_long)
                             || (code == BPFHOST_ERR_SIZE && is_any_size_wrong) || (code == BPFHOST_ERR_OVERLAP && do_overlap),
                         "the code says something that is wrong");
    } else {
        __CPROVER_assert(is_asked == asks, "the proved function is called if nothing is wrong");
        __CPROVER_assert(code != BPFHOST_ERR_NULL && code != BPFHOST_ERR_LENGTH && code != BPFHOST_ERR_OVERLAP, "the code is another");
    }
    __CPROVER_assert(arena[watched] == byte_before || (code == BPFHOST_DONE && may_be_written()),
                     "no byte changes but those that may be written");
}

/* The first object is a room, in which the frame has `fixed` bytes, followed by `more` bytes. */
static void end_frame(size_t returned, size_t room, size_t fixed, size_t more)
{
    bool is_wrong = is_any_null || is_any_too_long || overlap();
    size_t length = !is_wrong && room >= fixed && room - fixed >= more ? fixed + more : 0;
    __CPROVER_assert(returned == length, "the length is the frame's, or 0 if something is wrong");
    __CPROVER_assert(arena[watched] == byte_before || is_of(0, length), "no byte changes but the frame's");
}

/* ---- in the place of other functions */

struct piece {
    const void *at;
    size_t length;
    bool is_written;
};

static bool have_a_byte_in_common(struct piece a, struct piece b)
{
    return __CPROVER_POINTER_OBJECT(a.at) == __CPROVER_POINTER_OBJECT(b.at) && a.length != 0 && b.length != 0
        && __CPROVER_POINTER_OFFSET(a.at) < __CPROVER_POINTER_OFFSET(b.at) + b.length
        && __CPROVER_POINTER_OFFSET(b.at) < __CPROVER_POINTER_OFFSET(a.at) + a.length;
}

/* Changes any byte of a piece, in any way. */
static void change(struct piece piece)
{
    size_t at = nondet_uint8_t();
    if (at < piece.length)
        ((uint8_t *)piece.at)[at] = nondet_uint8_t();
}

static void copy(void *to, const void *from, size_t length)
{
    const struct piece target = {to, length, true}, source = {from, length, false};
    __CPROVER_assert(__CPROVER_w_ok(to, length) && __CPROVER_r_ok(from, length), "what is copied is there");
    __CPROVER_assert(!have_a_byte_in_common(target, source), "what is copied does not overlap");
    change(target);
}

static void *given(size_t number, size_t size)
{
    void *at = calloc(number, size);
    is_memory_refused = at == NULL;
    return at;
}

/* Takes the call of a proved function, and returns a code: if it is DONE, what may be written has changed. */
static int32_t ask(const struct piece *pieces, size_t pieces_count)
{
    int32_t code = nondet_int32_t();
    __CPROVER_assume(code <= BPFHOST_DONE && code >= BPFHOST_ERR_NO_PART);
    __CPROVER_assert(!is_asked, "a proved function is called once");
    is_asked = true;
    for (size_t i = 0; i < pieces_count; i++) {
        __CPROVER_assert(pieces[i].at != NULL, "no pointer is null");
        __CPROVER_assert(pieces[i].length <= PTRDIFF_MAX, "no length is above PTRDIFF_MAX");
        __CPROVER_assert(pieces[i].length == 0 || __CPROVER_r_ok(pieces[i].at, pieces[i].length), "the bytes are there");
        for (size_t j = 0; j < i; j++)
            __CPROVER_assert(!(pieces[i].is_written || pieces[j].is_written) || !have_a_byte_in_common(pieces[i], pieces[j]),
                             "what may be written overlaps nothing");
    }
    for (size_t i = 0; i < pieces_count; i++)
        if (code == BPFHOST_DONE && pieces[i].is_written)
            change(pieces[i]);
    return code;
}

int32_t bpfhost_c_new(bpfhost *handle, size_t tenants, uint64_t first, uint64_t second)
{
    const struct piece pieces[] = {{handle, BPFHOST_HANDLE_SIZE, true}};
    int32_t code;
    (void)tenants, (void)first, (void)second;
    code = ask(pieces, 1);
    is_made = code == BPFHOST_DONE;
    return code;
}

int32_t bpfhost_c_handle(bpfhost *handle, const uint8_t *frame, size_t frame_length, uint8_t *room, size_t room_length,
                         size_t *written)
{
    const struct piece pieces[] = {
        {handle, BPFHOST_HANDLE_SIZE, true}, {frame, frame_length, false}, {room, room_length, true}, {written, sizeof *written, true}};
    return ask(pieces, 4);
}

static struct lent {
    uint8_t bytes[18];
} lent;

/* It lends any reply of 12 to 18 bytes. */
int32_t bpfhost_c_handle_lent(bpfhost *handle, const uint8_t *frame, size_t frame_length, bpfhost_bytes *reply)
{
    const bpfhost_bytes before = *reply;
    const struct piece pieces[] = {{handle, BPFHOST_HANDLE_SIZE, true}, {frame, frame_length, false}, {reply, sizeof *reply, true}};
    size_t length = nondet_uint8_t();
    struct lent any;
    int32_t code;
    if (is_made) {
        __CPROVER_assert(frame_length == 0, "a new host is given a frame without bytes");
        reply->at = lent.bytes;
        return BPFHOST_DONE;
    }
    code = ask(pieces, 3);
    __CPROVER_assert(before.at != NULL && before.length == 0, "a reply has no bytes before it is lent");
    __CPROVER_assume(length >= 12 && length <= sizeof any);
    if (code == BPFHOST_DONE) {
        lent = any;
        bpfhost_put32(lent.bytes, (uint32_t)length - 4);
        reply->at = lent.bytes;
        reply->length = length;
    }
    return code;
}

uint32_t bpfhost_c_version(void)
{
    return BPFHOST_VERSION_NUMBER;
}

uint32_t bpfhost_c_abi(void)
{
    return abi_of_library;
}

int32_t bpfhost_c_run_packets(bpfhost *handle, uint16_t tenant, uint32_t fd, uint64_t bound, const uint32_t *contexts,
                              size_t word_count, size_t context_words, const uint8_t *bytes, size_t byte_count, const size_t *ends,
                              size_t packets, uint32_t *results, size_t room, int32_t *status, size_t *ran)
{
    const struct piece pieces[] = {{handle, BPFHOST_HANDLE_SIZE, true},     {contexts, word_count * sizeof *contexts, false},
                                   {bytes, byte_count, false},              {ends, packets * sizeof *ends, false},
                                   {results, room * sizeof *results, true}, {status, sizeof *status, true},
                                   {ran, sizeof *ran, true}};
    (void)tenant, (void)fd, (void)bound;
    __CPROVER_assert(room == packets && packets <= PTRDIFF_MAX / sizeof *ends, "there are as many results as packets");
    __CPROVER_assert(word_count <= PTRDIFF_MAX / sizeof *contexts, "there are no more contexts than an object has");
    __CPROVER_assert(context_words != 0 && word_count % context_words == 0, "contexts are whole");
    return ask(pieces, 7);
}

int32_t bpfhost_c_program_cost(bpfhost *handle, uint16_t tenant, uint32_t fd, bpfhost_cost *cost)
{
    const struct piece pieces[] = {{handle, BPFHOST_HANDLE_SIZE, true}, {cost, sizeof *cost, true}};
    (void)tenant, (void)fd;
    return ask(pieces, 2);
}

int32_t bpfhost_c_save(bpfhost *handle, uint16_t tenant, size_t part, bpfhost_bytes *frames)
{
    const struct piece pieces[] = {{handle, BPFHOST_HANDLE_SIZE, true}, {frames, sizeof *frames, true}};
    (void)tenant, (void)part;
    return ask(pieces, 2);
}

int32_t bpfhost_c_memory_refused(bpfhost *handle, uint16_t tenant, bool *refused)
{
    const struct piece pieces[] = {{handle, BPFHOST_HANDLE_SIZE, true}, {refused, sizeof *refused, true}};
    int32_t code;
    (void)tenant;
    __CPROVER_assert(*(const uint8_t *)refused <= 1, "a bool is false or true");
    code = ask(pieces, 2);
    if (code == BPFHOST_DONE)
        *refused = nondet_bool();
    return code;
}

void bpfhost_c_free(bpfhost *handle)
{
    const struct piece pieces[] = {{handle, BPFHOST_HANDLE_SIZE, true}};
    ask(pieces, 1);
}

/* ---- the functions */

/* The library is one for this header or not, and there may be no memory for the handle. */
void try_new(void)
{
    uint8_t here[32];
    lie_in(here, sizeof here);
    abi_of_library = nondet_uint8_t();
    bpfhost **host = ONE(host, WRITTEN);
    const bpfhost_seed *seed = ONE(seed, READ);
    int code = bpfhost_new(host, nondet_size_t(), seed);
    end(code, abi_of_library == BPFHOST_ABI && !is_memory_refused);
}

void try_handle(void)
{
    uint8_t here[24 + KEPT];
    lie_in(here, sizeof here);
    size_t frame_length = any_length(), room_length = any_length();
    bpfhost *host = HOST;
    const void *frame = BYTES(frame_length, READ | NULL_IF_EMPTY);
    void *room = BYTES(room_length, WRITTEN);
    size_t *written = ONE(written, WRITTEN);
    end(bpfhost_handle(host, frame, frame_length, room, room_length, written), true);
}

/* A refused call empties a reply that overlaps nothing, unless the frame is too long. */
void try_handle_lent(void)
{
    uint8_t here[32 + KEPT];
    lie_in(here, sizeof here);
    size_t frame_length = any_length();
    bpfhost *host = HOST;
    const void *frame = BYTES(frame_length, READ | NULL_IF_EMPTY);
    bpfhost_bytes *reply = ONE(reply, WRITTEN);
    int code = bpfhost_handle_lent(host, frame, frame_length, reply);
    if (code != BPFHOST_DONE && reply != NULL && !is_any_too_long && !is_shared(2)) {
        __CPROVER_assert(reply->at != NULL && reply->length == 0, "a refused call empties its reply");
        if (is_of(2, sizeof *reply))
            byte_before = arena[watched];
    }
    end(code, true);
}

void try_ask(void)
{
    uint8_t here[56 + KEPT];
    lie_in(here, sizeof here);
    size_t frame_length = any_length();
    bpfhost *host = HOST;
    const void *frame = BYTES(frame_length, READ | NULL_IF_EMPTY);
    bpfhost_reply *reply = ONE(reply, WRITTEN);
    end(bpfhost_ask(host, frame, frame_length, reply), true);
}

void try_ask_sized(void)
{
    uint8_t here[56 + KEPT];
    lie_in(here, sizeof here);
    size_t frame_length = any_length(), size = any_length();
    bpfhost *host = HOST;
    const void *frame = BYTES(frame_length, READ | NULL_IF_EMPTY);
    void *reply = BYTES(size, WRITTEN);
    is_any_size_wrong = size == 0;
    end(bpfhost_ask_sized(host, frame, frame_length, reply, size), true);
}

/* NO_REPLY may come too, and first: nothing has changed then. */
void try_read_reply(void)
{
    uint8_t here[60];
    lie_in(here, sizeof here);
    size_t length = any_length();
    const void *bytes = BYTES(length, READ);
    bpfhost_reply *reply = ONE(reply, WRITTEN);
    end(bpfhost_read_reply(bytes, length, reply), false);
}

void try_read_reply_sized(void)
{
    uint8_t here[60];
    lie_in(here, sizeof here);
    size_t length = any_length(), size = any_length();
    const void *bytes = BYTES(length, READ);
    void *reply = BYTES(size, WRITTEN);
    is_any_size_wrong = size == 0;
    end(bpfhost_read_reply_sized(bytes, length, reply, size), false);
}

void try_context_words(void)
{
    uint8_t here[84];
    lie_in(here, sizeof here);
    const bpfhost_context *context = ONE(context, READ | MAY_BE_NULL);
    uint32_t(*words)[10] = ONE(words, WRITTEN);
    end(bpfhost_context_words(context, (uint32_t *)words), false);
}

void try_run_packets(void)
{
    uint8_t here[68 + KEPT];
    lie_in(here, sizeof here);
    size_t byte_count = any_length(), ends_size = any_length(), packets = any_units(ends_size, sizeof(size_t));
    size_t results_size = ends_size > PTRDIFF_MAX ? ends_size : packets * sizeof(uint32_t);
    bpfhost *host = HOST;
    const bpfhost_context *context = ONE(context, READ | MAY_BE_NULL);
    const void *bytes = BYTES(byte_count, READ | NULL_IF_EMPTY);
    const size_t *ends = object(ends_size, sizeof *ends, READ | NULL_IF_EMPTY);
    uint32_t *results = object(results_size, sizeof *results, WRITTEN | NULL_IF_EMPTY);
    int32_t *status = ONE(status, WRITTEN);
    end(bpfhost_run_packets(host, 1, 3, context, bytes, byte_count, ends, packets, results, status), true);
}

void try_run_packets_with(void)
{
    uint8_t here[116 + KEPT];
    lie_in(here, sizeof here);
    size_t byte_count = any_length(), ends_size = any_length(), packets = any_units(ends_size, sizeof(size_t));
    size_t results_size = ends_size > PTRDIFF_MAX ? ends_size : packets * sizeof(uint32_t);
    size_t contexts_size = any_length(), context_count = any_units(contexts_size, sizeof(bpfhost_context));
    bpfhost *host = HOST;
    const bpfhost_context *contexts = object(contexts_size, __alignof__(bpfhost_context), READ | NULL_IF_EMPTY);
    const void *bytes = BYTES(byte_count, READ | NULL_IF_EMPTY);
    const size_t *ends = object(ends_size, sizeof *ends, READ | NULL_IF_EMPTY);
    uint32_t *results = object(results_size, sizeof *results, WRITTEN | NULL_IF_EMPTY);
    int32_t *status = ONE(status, WRITTEN);
    end(bpfhost_run_packets_with(host, 1, 3, contexts, context_count, bytes, byte_count, ends, packets, results, status), true);
}

/* Contexts of up to 12 words, or of no whole words; if there are none, their size counts for nothing. */
void try_run_packets_sized(void)
{
    uint8_t here[84 + KEPT];
    lie_in(here, sizeof here);
    size_t byte_count = any_length(), ends_size = any_length(), packets = any_units(ends_size, sizeof(size_t));
    size_t results_size = ends_size > PTRDIFF_MAX ? ends_size : packets * sizeof(uint32_t);
    size_t size = nondet_uint8_t(), contexts_size = size == 0 ? 0 : any_length();
    __CPROVER_assume(size <= 48);
    size_t context_count = size == 0 ? nondet_size_t() : any_units(contexts_size, size);
    bpfhost *host = HOST;
    const void *contexts = object(contexts_size, __alignof__(uint32_t), READ | NULL_IF_EMPTY);
    const void *bytes = BYTES(byte_count, READ | NULL_IF_EMPTY);
    const size_t *ends = object(ends_size, sizeof *ends, READ | NULL_IF_EMPTY);
    uint32_t *results = object(results_size, sizeof *results, WRITTEN | NULL_IF_EMPTY);
    int32_t *status = ONE(status, WRITTEN);
    is_any_size_wrong = context_count != 0 && (size == 0 || size % sizeof(uint32_t) != 0);
    if (size == 0 && context_count != 0 && contexts == NULL)
        is_any_null = true;
    end(bpfhost_run_packets_sized(host, 1, 3, contexts, size, context_count, bytes, byte_count, ends, packets, results, status), true);
}

/* With a bound, and the number of packets that were run. */
void try_run_bounded(void)
{
    uint8_t here[76 + KEPT];
    lie_in(here, sizeof here);
    size_t byte_count = any_length(), ends_size = any_length(), packets = any_units(ends_size, sizeof(size_t));
    size_t results_size = ends_size > PTRDIFF_MAX ? ends_size : packets * sizeof(uint32_t);
    bpfhost *host = HOST;
    const bpfhost_context *context = ONE(context, READ | MAY_BE_NULL);
    const void *bytes = BYTES(byte_count, READ | NULL_IF_EMPTY);
    const size_t *ends = object(ends_size, sizeof *ends, READ | NULL_IF_EMPTY);
    uint32_t *results = object(results_size, sizeof *results, WRITTEN | NULL_IF_EMPTY);
    int32_t *status = ONE(status, WRITTEN);
    size_t *ran = ONE(ran, WRITTEN);
    end(bpfhost_run_bounded(host, 1, 3, context, bytes, byte_count, ends, packets, 100, results, status, ran), true);
}

void try_run_bounded_with(void)
{
    uint8_t here[124 + KEPT];
    lie_in(here, sizeof here);
    size_t byte_count = any_length(), ends_size = any_length(), packets = any_units(ends_size, sizeof(size_t));
    size_t results_size = ends_size > PTRDIFF_MAX ? ends_size : packets * sizeof(uint32_t);
    size_t contexts_size = any_length(), context_count = any_units(contexts_size, sizeof(bpfhost_context));
    bpfhost *host = HOST;
    const bpfhost_context *contexts = object(contexts_size, __alignof__(bpfhost_context), READ | NULL_IF_EMPTY);
    const void *bytes = BYTES(byte_count, READ | NULL_IF_EMPTY);
    const size_t *ends = object(ends_size, sizeof *ends, READ | NULL_IF_EMPTY);
    uint32_t *results = object(results_size, sizeof *results, WRITTEN | NULL_IF_EMPTY);
    int32_t *status = ONE(status, WRITTEN);
    size_t *ran = ONE(ran, WRITTEN);
    end(bpfhost_run_bounded_with(host, 1, 3, contexts, context_count, bytes, byte_count, ends, packets, 100, results, status, ran), true);
}

/* A value that is longer than its room is a code too, after the host was called: it is left out here. */
void try_map_lookup(void)
{
    uint8_t here[72 + KEPT];
    lie_in(here, sizeof here);
    size_t key_size = any_length(), value_size = any_length();
    bpfhost *host = HOST;
    const void *key = BYTES(key_size, READ | NULL_IF_EMPTY);
    void *value = BYTES(value_size, WRITTEN | NULL_IF_EMPTY);
    bpfhost_result *out = ONE(out, WRITTEN);
    int code = bpfhost_map_lookup(host, 1, 3, key, key_size, value, value_size, out);
    __CPROVER_assume(!is_asked || code != BPFHOST_ERR_BUFFER_TOO_SMALL);
    end(code, true);
}

void try_map_update(void)
{
    uint8_t here[72 + KEPT];
    lie_in(here, sizeof here);
    size_t key_size = any_length(), value_size = any_length();
    bpfhost *host = HOST;
    const void *key = BYTES(key_size, READ | NULL_IF_EMPTY);
    const void *value = BYTES(value_size, READ | NULL_IF_EMPTY);
    bpfhost_result *out = ONE(out, WRITTEN);
    int code = bpfhost_map_update(host, 1, 3, key, key_size, value, value_size, 0, out);
    __CPROVER_assume(!is_asked || code != BPFHOST_ERR_BUFFER_TOO_SMALL);
    end(code, true);
}

void try_prog_test_run(void)
{
    uint8_t here[120 + KEPT];
    lie_in(here, sizeof here);
    size_t packet_length = any_length();
    bpfhost *host = HOST;
    const bpfhost_context *context = ONE(context, READ | MAY_BE_NULL);
    const void *packet = BYTES(packet_length, READ | NULL_IF_EMPTY);
    bpfhost_result *out = ONE(out, WRITTEN);
    end(bpfhost_prog_test_run(host, 1, 4, context, packet, packet_length, out), true);
}

void try_close(void)
{
    uint8_t here[48 + KEPT];
    lie_in(here, sizeof here);
    bpfhost *host = HOST;
    bpfhost_result *out = ONE(out, WRITTEN);
    int code = bpfhost_close(host, 1, 4, out);
    __CPROVER_assume(!is_asked || code != BPFHOST_ERR_BUFFER_TOO_SMALL);
    end(code, true);
}

void try_save_part(void)
{
    uint8_t here[32 + KEPT];
    lie_in(here, sizeof here);
    bpfhost *host = HOST;
    bpfhost_bytes *frames = ONE(frames, WRITTEN);
    end(bpfhost_save_part(host, 1, 0, frames), true);
}

void try_memory_refused(void)
{
    uint8_t here[16 + KEPT];
    lie_in(here, sizeof here);
    bpfhost *host = HOST;
    bool *refused = ONE(refused, WRITTEN);
    end(bpfhost_memory_refused(host, 1, refused), true);
}

void try_free(void)
{
    uint8_t here[1];
    lie_in(here, sizeof here);
    bpfhost *host = nondet_bool() ? NULL : (bpfhost *)calloc(1, sizeof(bpfhost_memory));
    const bool is_null = host == NULL;
    bpfhost_free(host);
    end(BPFHOST_DONE, !is_null);
}

void try_frame_map_create(void)
{
    uint8_t here[32];
    lie_in(here, sizeof here);
    size_t room = any_length();
    void *frame = BYTES(room, WRITTEN);
    end_frame(bpfhost_frame_map_create(frame, room, 1, BPFHOST_HASH, 4, 8, 16, 0), room, 24, 0);
}

void try_frame_of_key(void)
{
    uint8_t here[20];
    lie_in(here, sizeof here);
    size_t room = any_length(), key_size = any_length();
    void *frame = BYTES(room, WRITTEN);
    const void *key = BYTES(key_size, READ | NULL_IF_EMPTY);
    end_frame(bpfhost_frame_of_key(frame, room, 1, BPFHOST_MAP_LOOKUP, 3, key, key_size), room, 8, key_size);
}

void try_frame_map_update(void)
{
    uint8_t here[24];
    lie_in(here, sizeof here);
    size_t room = any_length(), key_size = any_length(), value_size = any_length();
    void *frame = BYTES(room, WRITTEN);
    const void *key = BYTES(key_size, READ | NULL_IF_EMPTY);
    const void *value = BYTES(value_size, READ | NULL_IF_EMPTY);
    end_frame(bpfhost_frame_map_update(frame, room, 1, 3, 0, key, key_size, value, value_size), room, 16, key_size + value_size);
}

void try_frame_prog_load(void)
{
    uint8_t here[32];
    lie_in(here, sizeof here);
    size_t room = any_length(), size = any_length(), count_of_slots = any_units(size, 8);
    void *frame = BYTES(room, WRITTEN);
    const void *slots = BYTES(size, READ | NULL_IF_EMPTY);
    end_frame(bpfhost_frame_prog_load(frame, room, 1, BPFHOST_SOCKET_FILTER, slots, count_of_slots), room, 8, size);
}

void try_frame_test_run_head(void)
{
    uint8_t here[92];
    lie_in(here, sizeof here);
    size_t room = any_length();
    void *frame = BYTES(room, WRITTEN);
    const bpfhost_context *context = ONE(context, READ | MAY_BE_NULL);
    end_frame(bpfhost_frame_test_run_head(frame, room, 1, 4, context), room, 48, 0);
}

void try_frame_prog_test_run(void)
{
    uint8_t here[92];
    lie_in(here, sizeof here);
    size_t room = any_length(), packet_length = any_length();
    void *frame = BYTES(room, WRITTEN);
    const bpfhost_context *context = ONE(context, READ | MAY_BE_NULL);
    const void *packet = BYTES(packet_length, READ | NULL_IF_EMPTY);
    end_frame(bpfhost_frame_prog_test_run(frame, room, 1, 4, context, packet, packet_length), room, 48, packet_length);
}
