/* Each function of bpfhost.h that may write something, in all ways in which its objects can be wrong. They are in one arena. Each is
 * present or null, and each length is right, zero or larger than any object; in each of these cases each two of the objects are at
 * each distance at which they have a byte in common, and side by side. A model, which marks the owners of each byte, determines what
 * is wrong. Then the call has to return the error, no proved function may be called, and only bytes may change of which bpfhost.h
 * says so. If nothing is wrong, the proved function has to get these objects, and only what may be written may change.
 *
 * It is built without the library, over the functions of stubs.h. functions.h lists the functions. */
#include "common.h"
#include <string.h>
#include "stubs.h"
#include "functions.h"

#if defined(__SANITIZE_ADDRESS__)
#define HAS_ADDRESS_SANITIZER
#elif defined(__has_feature)
#if __has_feature(address_sanitizer)
#define HAS_ADDRESS_SANITIZER
#endif
#endif
#ifdef HAS_ADDRESS_SANITIZER
#include <sanitizer/asan_interface.h>
#else
#define ASAN_POISON_MEMORY_REGION(at, length) ((void)(at), (void)(length))
#define ASAN_UNPOISON_MEMORY_REGION(at, length) ((void)(at), (void)(length))
#endif

#define MOST_VALUES 64
#define APART 128 /* from the place of an object to that of the next, while they lie apart */
#define ARENA ((MOST_OBJECTS + 1) * APART)

/* What can be wrong. */
enum { NULLS = 1, LENGTHS = 2, OVERLAPS = 4, TOO_FEW = 8 };

static union {
    uint8_t bytes[ARENA];
    uint64_t number;
    void *pointer;
} arena;
static uint8_t any_bytes[ARENA];             /* none of them a mark */
static uint8_t before[ARENA], owners[ARENA]; /* the value before, and a bit for each object that has the byte */

/* What is tried. */
static const struct function *function;
static struct given given;
static size_t places[MOST_OBJECTS];
static long layouts, refusals;

static void fails(const char *what)
{
    fprintf(stderr, "%s: %s\n", function->name, what);
    for (size_t i = 0; i < function->objects; i++) {
        const struct object *object = &function->object[i];
        fprintf(stderr, "  %s, %zu bytes: ", object->name, object->unit * object->units);
        if (given.at[i] == NULL)
            fputs("null", stderr);
        else
            fprintf(stderr, "at byte %zu of the arena", places[i]);
        if (object->count != UNCOUNTED)
            fprintf(stderr, ", with the count %zu", given.counts[object->count]);
        fputs("\n", stderr);
    }
    fprintf(stderr, "  a proved function, if it is asked, returns %d\n", (int)asked.code);
    exit(1);
}

static size_t most_units(const struct object *object)
{
    return PTRDIFF_MAX / object->unit;
}

/* The bytes of an object in the arena. A count that no object has changes nothing. */
static size_t size_of(const struct object *object)
{
    size_t units = object->units;
    if (object->count != UNCOUNTED && given.counts[object->count] < units)
        units = given.counts[object->count];
    return object->unit * units;
}

/* Puts each object that is not null to its place in the arena. */
static void lay(const bool *is_null)
{
    memcpy(before, any_bytes, ARENA);
    memset(owners, 0, ARENA);
    for (size_t i = 0; i < function->objects; i++) {
        const struct object *object = &function->object[i];
        given.at[i] = is_null[i] ? NULL : arena.bytes + places[i];
        if (is_null[i])
            continue;
        if (object->content != NULL)
            memcpy(before + places[i], object->content, size_of(object));
        for (size_t at = 0; at < size_of(object); at++)
            owners[places[i] + at] |= (uint8_t)(1u << i);
    }
    memcpy(arena.bytes, before, ARENA);
}

/* Whether an object that is not null has a byte that another has too. */
static bool is_shared(size_t which)
{
    for (size_t at = 0; at < size_of(&function->object[which]); at++)
        if (owners[places[which] + at] != 1u << which)
            return true;
    return false;
}

/* What the first count has to be at least. */
static size_t fewest(void)
{
    size_t sum = function->least;
    for (size_t i = 1; i < function->objects && sum != 0; i++)
        if (function->object[i].count != UNCOUNTED)
            sum += function->object[i].unit * given.counts[function->object[i].count];
    return sum;
}

static unsigned what_is_wrong(void)
{
    unsigned wrong = 0;
    for (size_t i = 0; i < function->objects; i++) {
        const struct object *object = &function->object[i];
        size_t units = object->count == UNCOUNTED ? object->units : given.counts[object->count];
        if (given.at[i] == NULL && !(object->uses & MAY_BE_NULL) && !(object->uses & NULL_IF_EMPTY && units == 0))
            wrong |= NULLS;
        if (units > most_units(object))
            wrong |= LENGTHS;
        if (given.at[i] != NULL && object->uses & WRITTEN && is_shared(i))
            wrong |= OVERLAPS;
    }
    if (!(wrong & LENGTHS) && function->least != 0 && given.counts[0] < fewest())
        wrong |= TOO_FEW;
    return wrong;
}

/* Whether a code says something that is wrong. */
static bool names(int code, unsigned wrong)
{
    if (function->builds)
        return code == REFUSED;
    return (code == BPFHOST_ERR_NULL && wrong & NULLS) || (code == BPFHOST_ERR_LENGTH && wrong & LENGTHS)
        || (code == BPFHOST_ERR_OVERLAP && wrong & OVERLAPS) || (code == BPFHOST_ERR_NO_REPLY && wrong & TOO_FEW);
}

/* Whether a refused call has to empty an object. */
static bool is_emptied(size_t which, unsigned wrong)
{
    return function->object[which].uses & EMPTIED && given.at[which] != NULL && !(wrong & LENGTHS) && !is_shared(which);
}

/* An object's bytes after the call: the first `count` may be anything, the others are as they were. */
static void forgive(size_t which, size_t count)
{
    if (given.at[which] != NULL)
        memcpy(before + places[which], arena.bytes + places[which], count);
}

/* What the call may have changed is taken as it is; then nothing else has changed. */
static void check_bytes(int code, unsigned wrong)
{
    for (size_t i = 0; i < function->objects; i++) {
        const struct object *object = &function->object[i];
        if (code == BPFHOST_DONE && object->uses & WRITTEN)
            forgive(i, function->builds ? built : size_of(object));
        if (code != BPFHOST_DONE && is_emptied(i, wrong)) {
            const bpfhost_bytes *reply = (const bpfhost_bytes *)given.at[i];
            if (reply->at == NULL || reply->length != 0)
                fails("a refused call has not emptied its reply");
            forgive(i, size_of(object));
        }
    }
    if (memcmp(arena.bytes, before, ARENA) != 0)
        fails(code == BPFHOST_DONE ? "it writes to what it may not write" : "it is refused, and writes");
}

/* The address sanitizer stops reads and writes outside the objects. */
static void guard(void)
{
    ASAN_POISON_MEMORY_REGION(arena.bytes, ARENA);
    for (size_t i = 0; i < function->objects; i++)
        if (given.at[i] != NULL)
            ASAN_UNPOISON_MEMORY_REGION(arena.bytes + places[i], size_of(&function->object[i]));
}

static void try_layout(const bool *is_null)
{
    unsigned wrong;
    int code;
    lay(is_null);
    wrong = what_is_wrong();
    asked.calls = 0;
    guard();
    code = function->call(&given);
    ASAN_UNPOISON_MEMORY_REGION(arena.bytes, ARENA);
    if (wrong != 0 && asked.calls != 0)
        fails("a proved function is asked, though something is wrong");
    if (wrong != 0 && !names(code, wrong))
        fails("it does not say what is wrong");
    check_bytes(code, wrong);
    if (wrong == 0 && !function->holds(&given, code))
        fails("nothing is wrong, and the call is not what it should be");
    layouts++;
    refusals += wrong != 0;
}

/* The place of an object while all lie apart. */
static size_t place_apart(size_t which)
{
    return (which + 1) * APART;
}

/* Places one object, and another so many bytes after it, if both are aligned; false if there is no such place. */
static bool put_pair(size_t one, size_t other, size_t distance)
{
    for (size_t shift = 0; shift < 16; shift++) {
        places[one] = place_apart(one) + shift;
        places[other] = places[one] + distance;
        if (places[one] % function->object[one].alignment == 0 && places[other] % function->object[other].alignment == 0)
            return true;
    }
    return false;
}

/* Two objects at each distance at which they have a byte in common, and side by side. */
static void try_pair(const bool *is_null, size_t one, size_t other)
{
    size_t behind = size_of(&function->object[one]) + 1, front = size_of(&function->object[other]) + 1;
    for (size_t step = 0; step <= front + behind; step++)
        if (put_pair(one, other, step - front))
            try_layout(is_null);
    places[one] = place_apart(one);
    places[other] = place_apart(other);
}

static void try_layouts(const bool *is_null)
{
    for (size_t i = 0; i < function->objects; i++)
        places[i] = place_apart(i);
    try_layout(is_null);
    for (size_t i = 0; i < function->objects; i++)
        for (size_t j = i + 1; j < function->objects; j++)
            if (!is_null[i] && !is_null[j])
                try_pair(is_null, i, j);
}

/* The values of a count: as many as there are, none, and more than any object has, of which some come to few bytes if they are
 * multiplied. */
static size_t values_of(size_t count, size_t *values)
{
    size_t found = 3;
    values[0] = 0;
    values[1] = SIZE_MAX;
    for (size_t i = 0; i < function->objects; i++) {
        const struct object *object = &function->object[i];
        if (object->count != count)
            continue;
        values[2] = object->units;
        values[found++] = most_units(object) + 1;
        if (object->unit != 1) {
            values[found++] = SIZE_MAX / object->unit + 1;
            values[found++] = SIZE_MAX / object->unit + 2;
        }
    }
    return found;
}

/* The values below so many: with some of them a frame does not fit. */
static size_t values_below(size_t units, size_t *values)
{
    for (size_t few = 1; few < units; few++)
        values[few - 1] = few;
    return units - 1;
}

/* Each of the values of each count from `count` on. */
static void try_counts(const bool *is_null, size_t count)
{
    size_t values[MOST_VALUES], found;
    if (count == function->counts) {
        try_layouts(is_null);
        return;
    }
    found = values_of(count, values);
    if (count == 0 && function->least != 0)
        found += values_below(function->object[0].units, values + found);
    for (size_t i = 0; i < found; i++) {
        given.counts[count] = values[i];
        try_counts(is_null, count + 1);
    }
}

/* Each object null or not. */
static void try_nulls(void)
{
    for (unsigned nulls = 0; nulls < 1u << function->objects; nulls++) {
        bool is_null[MOST_OBJECTS];
        for (size_t i = 0; i < function->objects; i++)
            is_null[i] = nulls >> i & 1;
        try_counts(is_null, 0);
    }
}

/* While the proved function does what it is asked, if one is; then while it refuses. */
static void try_function(const struct function *it)
{
    long asked_before = asked.ever;
    function = it;
    asked.code = BPFHOST_DONE;
    try_nulls();
    asked.code = BPFHOST_ERR_NO_HOST;
    if (asked.ever != asked_before)
        try_nulls();
}

/* Objects of up to three bytes around an address, which may be the one at which addresses wrap around. No object lies there: with one that
 * reaches it, no other one is apart. In the lower half of the addresses, objects with bytes are apart if and only if they are side by side,
 * and those without are then apart too. */
static void try_are_apart(uintptr_t around)
{
    for (unsigned i = 0; i < 8 * 4 * 8 * 4; i++) {
        uintptr_t a = around + i / 128, b = around + i / 4 % 8;
        size_t a_length = i / 32 % 4, b_length = i % 4;
        bool is_apart = true;
        for (size_t at = 0; at < a_length; at++)
            for (size_t other = 0; other < b_length; other++)
                is_apart = is_apart && a + at != b + other && a + at != UINTPTR_MAX && b + other != UINTPTR_MAX;
        CHECK(bpfhost_are_apart((const void *)a, a_length, (const void *)b, b_length) == is_apart);
        if ((bpfhost_word_of((const void *)a, a_length) | bpfhost_word_of((const void *)b, b_length)) <= PTRDIFF_MAX) {
            bool is_beside = bpfhost_are_beside((const void *)a, a_length, (const void *)b, b_length);
            bool is_disjoint = bpfhost_are_disjoint((const void *)a, a_length, (const void *)b, b_length);
            CHECK(is_beside == is_apart || (is_apart && a_length * b_length == 0));
            CHECK(is_disjoint == is_apart || (is_apart && a_length * b_length == 0));
        } else {
            CHECK(around > PTRDIFF_MAX - 16);
        }
    }
}

/* It passes the host to the proved function, and then frees the memory of its handle. Null is ignored. */
static void try_free(void)
{
    bpfhost *host = (bpfhost *)calloc(1, sizeof(bpfhost_memory));
    const uintptr_t at = (uintptr_t)host;
    asked.calls = 0;
    bpfhost_free(NULL);
    CHECK(asked.calls == 0);
    bpfhost_free(host);
    CHECK(asked.calls == 1 && (uintptr_t)asked.at[0] == at);
}

static void try_prepared_free(void)
{
    bpfhost_prepared *prepared = (bpfhost_prepared *)calloc(1, sizeof(bpfhost_memory));
    const uintptr_t at = (uintptr_t)prepared;
    asked.calls = 0;
    bpfhost_prepared_free(NULL);
    CHECK(asked.calls == 0);
    bpfhost_prepared_free(prepared);
    CHECK(asked.calls == 1 && (uintptr_t)asked.at[0] == at);
}

/* A host that has lent a reply and a part, and bytes around both. */
static uint8_t around_reply[3 * BPFHOST_LONGEST_REPLY], around_part[64];
static bpfhost_memory lender;
#define LENDER ((bpfhost *)(void *)&lender)

static int lent_to_handle(const uint8_t *at, size_t length)
{
    static uint8_t room[BPFHOST_LONGEST_REPLY];
    size_t written;
    return bpfhost_handle(LENDER, at, length, room, sizeof room, &written);
}

static int lent_to_handle_lent(const uint8_t *at, size_t length)
{
    bpfhost_bytes reply = {NULL, 7};
    int code = bpfhost_handle_lent(LENDER, at, length, &reply);
    CHECK(code == BPFHOST_DONE || (reply.at != NULL && reply.length == 0));
    return code;
}

static int lent_to_ask(const uint8_t *at, size_t length)
{
    bpfhost_reply reply;
    return bpfhost_ask(LENDER, at, length, &reply);
}

static int lent_to_ask_sized(const uint8_t *at, size_t length)
{
    bpfhost_reply reply;
    return bpfhost_ask_sized(LENDER, at, length, &reply, sizeof reply);
}

/* The bytes are no frames, which is the other code here. */
static int lent_to_restore(const uint8_t *at, size_t length)
{
    int32_t status;
    int code = bpfhost_restore(LENDER, 258, at, length, &status);
    asked.calls += code == BPFHOST_ERR_BAD_FRAMES;
    return code == BPFHOST_ERR_BAD_FRAMES ? BPFHOST_DONE : code;
}

static int lent_to_run_packets(const uint8_t *at, size_t length)
{
    uint32_t result;
    int32_t status;
    return bpfhost_run_packets(LENDER, 1, 4, NULL, at, length, &length, 1, &result, &status);
}

static int lent_to_run_bounded(const uint8_t *at, size_t length)
{
    uint32_t result;
    int32_t status;
    size_t ran;
    return bpfhost_run_bounded(LENDER, 1, 4, NULL, at, length, &length, 1, 1, &result, &status, &ran);
}

/* The packet is the second of three; the others lie on both sides of all that is lent. */
static int lent_to_run_scattered(const uint8_t *at, size_t length)
{
    static uint8_t first[1], last[1];
    const bpfhost_packet packets[3] = {{first, sizeof first}, {at, length}, {last, sizeof last}};
    uint32_t results[3];
    int32_t status;
    int code = bpfhost_run_scattered(LENDER, 1, 4, NULL, 0, packets, 3, NULL, 0, results, &status);
    asked.calls = asked.calls != 0;
    return code;
}

/* The same with a bound that allows two packets of the stub's program: the third is not run. */
static int lent_to_run_bounded_scattered(const uint8_t *at, size_t length)
{
    static uint8_t first[1], last[1];
    const bpfhost_packet packets[3] = {{first, sizeof first}, {at, length}, {last, sizeof last}};
    uint32_t results[3];
    int32_t status;
    size_t ran;
    int code = bpfhost_run_bounded_scattered(LENDER, 1, 4, NULL, 0, packets, 3, NULL, 0, 2 * (10 + BPFHOST_CALL_WEIGHT) + 9, results, &status, &ran);
    asked.calls = asked.calls != 0;
    return code;
}

static int lent_to_prog_test_run(const uint8_t *at, size_t length)
{
    bpfhost_result result;
    return bpfhost_prog_test_run(LENDER, 1, 4, NULL, at, length, &result);
}

/* Frames and packets at each distance from what is lent: ERR_LENT, and no call, if they have a byte of it, and only then. */
static void try_lent_bytes(int (*call)(const uint8_t *at, size_t length), const uint8_t *lent, size_t lent_length)
{
    for (size_t length = 1; length <= 12; length++) {
        for (size_t at = 0; at <= lent_length + 2 * 12; at++) {
            const struct piece bytes = {lent - 12 + at, length, false}, piece = {lent, lent_length, false};
            bool is_lent = share_a_byte(bytes, piece);
            asked.calls = 0;
            memset(&lender, 0, sizeof lender);
            lender.replies = around_reply + BPFHOST_LONGEST_REPLY;
            lender.part.at = around_part + 24;
            lender.part.length = 16;
            CHECK(call(lent - 12 + at, length) == (is_lent ? BPFHOST_ERR_LENT : BPFHOST_DONE));
            CHECK(asked.calls == !is_lent);
            layouts++;
            refusals += is_lent;
        }
    }
}

static void try_lent(void)
{
    int (*const calls[])(const uint8_t *, size_t) = {lent_to_handle,        lent_to_handle_lent,           lent_to_ask,
                                                     lent_to_ask_sized,     lent_to_restore,               lent_to_run_packets,
                                                     lent_to_run_bounded,   lent_to_run_scattered,         lent_to_run_bounded_scattered,
                                                     lent_to_prog_test_run};
    asked.code = BPFHOST_DONE;
    for (size_t i = 0; i < sizeof calls / sizeof calls[0]; i++) {
        try_lent_bytes(calls[i], around_reply + BPFHOST_LONGEST_REPLY, BPFHOST_LONGEST_REPLY);
        try_lent_bytes(calls[i], around_part + 24, 16);
    }
}

int main(void)
{
    bpfhost_seed seed;
    for (size_t i = 0; i < ARENA; i++)
        any_bytes[i] = (uint8_t)(0x80 + i * 7 % 61);
    try_are_apart(UINTPTR_MAX / 3);
    try_are_apart(PTRDIFF_MAX - 3);
    try_are_apart(UINTPTR_MAX - 3);
    try_free();
    try_prepared_free();
    try_lent();
    for (size_t i = 0; i < sizeof functions / sizeof functions[0]; i++)
        try_function(&functions[i]);
    if (bpfhost_random_seed(&seed))
        try_function(&random_seed);
    else
        puts("objects: the system has no random bytes: bpfhost_random_seed is skipped");
    printf("objects: %ld ways to give functions their objects, %ld of them refused\n", layouts, refusals);
    return 0;
}
