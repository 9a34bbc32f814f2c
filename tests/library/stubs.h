/* In the place of the proved functions: each checks that it is asked what bpfhost.h says it is, records what it is given, and then
 * either writes marks to all that the proved function may write, or refuses with `asked.code` and writes nothing. */
#ifndef STUBS_H
#define STUBS_H

#include <bpfhost.h>

#define MOST_ASKED 7
#define MARK 0x3c

/* What the proved functions return, how often one was called, since the test reset the count and in all, and the arguments of the last
 * call. */
static struct {
    int32_t code;
    int calls;
    long ever;
    const void *at[MOST_ASKED];
    size_t numbers[MOST_ASKED];
    uint64_t bound; /* of a run */
    bpfhost_context context; /* the first one */
    size_t context_words;
    size_t made[3]; /* of the last new host: its tenants and the words of its seed */
} asked;

/* The binary interface of the library. */
static uint32_t abi_of_library = BPFHOST_ABI;

/* Reports what the header does wrong, and ends the test. */
static void fails(const char *what);

/* An object that a proved function is given. */
struct piece {
    const void *at;
    size_t length;
    bool is_written;
};

/* Whether two objects have a byte in common: it subtracts, while the header compares the ends. */
static bool share_a_byte(struct piece a, struct piece b)
{
    uintptr_t from = (uintptr_t)a.at, other = (uintptr_t)b.at;
    return a.length != 0 && b.length != 0 && (from - other < b.length || other - from < a.length);
}

/* Reads each byte, so that the address sanitizer sees it. */
static void read_all(const void *at, size_t length)
{
    static volatile uint8_t last;
    for (size_t i = 0; i < length; i++)
        last = ((const uint8_t *)at)[i];
    (void)last;
}

static void record(const struct piece *pieces, size_t count)
{
    asked.calls++;
    asked.ever++;
    for (size_t i = 0; i < count; i++) {
        if (pieces[i].at == NULL)
            fails("a proved function is given a null pointer");
        if (pieces[i].length > PTRDIFF_MAX)
            fails("a proved function is given a length that no object has");
        for (size_t j = 0; j < i; j++)
            if ((pieces[i].is_written || pieces[j].is_written) && share_a_byte(pieces[i], pieces[j]))
                fails("a proved function is given objects that overlap");
        read_all(pieces[i].at, pieces[i].length);
        asked.at[i] = pieces[i].at;
    }
}

/* Marks what may be written, unless the call is to be refused. */
static int32_t finish(const struct piece *pieces, size_t count)
{
    for (size_t i = 0; i < count && asked.code == BPFHOST_DONE; i++)
        if (pieces[i].is_written)
            memset((void *)(uintptr_t)pieces[i].at, MARK, pieces[i].length);
    return asked.code;
}

uint32_t bpfhost_c_version(void)
{
    return BPFHOST_VERSION_NUMBER;
}

uint32_t bpfhost_c_abi(void)
{
    return abi_of_library;
}

int32_t bpfhost_c_new(bpfhost *handle, size_t tenants, uint64_t first, uint64_t second)
{
    static const uint8_t empty[BPFHOST_HANDLE_SIZE] = {0};
    const struct piece pieces[] = {{handle, BPFHOST_HANDLE_SIZE, true}};
    record(pieces, 1);
    if (memcmp(handle, empty, sizeof empty) != 0)
        fails("a new host is put into a handle that is not empty");
    asked.made[0] = tenants;
    asked.made[1] = (size_t)first;
    asked.made[2] = (size_t)second;
    return finish(pieces, 1);
}

int32_t bpfhost_c_handle(bpfhost *handle, const uint8_t *frame, size_t frame_length, uint8_t *room, size_t room_length,
                         size_t *written)
{
    const struct piece pieces[] = {
        {handle, BPFHOST_HANDLE_SIZE, true}, {frame, frame_length, false}, {room, room_length, true}, {written, sizeof *written, true}};
    record(pieces, 4);
    asked.numbers[0] = frame_length;
    asked.numbers[1] = room_length;
    return finish(pieces, 4);
}

/* A reply to a load that is refused at slot 7 for reason 20, which it lends. */
static const uint8_t lent_reply[18] = {14, 0, 0, 0, 1, 0, 5, 0, 0xf3, 0xff, 0xff, 0xff, 7, 0, 0, 0, 20, 0};

int32_t bpfhost_c_handle_lent(bpfhost *handle, const uint8_t *frame, size_t frame_length, bpfhost_bytes *reply)
{
    const struct piece pieces[] = {{handle, BPFHOST_HANDLE_SIZE, true}, {frame, frame_length, false}, {reply, sizeof *reply, true}};
    record(pieces, 3);
    asked.numbers[0] = frame_length;
    if (reply->at == NULL)
        fails("a proved function is given a reply that leads nowhere");
    read_all(reply->at, reply->length);
    if (finish(pieces, 3) == BPFHOST_DONE) {
        reply->at = lent_reply;
        reply->length = sizeof lent_reply;
    }
    return asked.code;
}

int32_t bpfhost_c_run_packets(bpfhost *handle, uint16_t tenant, uint32_t fd, uint64_t bound, const uint32_t *contexts,
                              size_t word_count, size_t context_words, const uint8_t *bytes, size_t byte_count, const size_t *ends,
                              size_t packets, uint32_t *results, size_t room, int32_t *status, size_t *ran)
{
    const struct piece pieces[] = {{handle, BPFHOST_HANDLE_SIZE, true},     {contexts, word_count * sizeof *contexts, false},
                                   {bytes, byte_count, false},              {ends, packets * sizeof *ends, false},
                                   {results, room * sizeof *results, true}, {status, sizeof *status, true},
                                   {ran, sizeof *ran, true}};
    if (packets > PTRDIFF_MAX / sizeof *ends || room > PTRDIFF_MAX / sizeof *results || word_count > PTRDIFF_MAX / sizeof *contexts)
        fails("a proved function is given more elements than an object has");
    if (context_words == 0 || word_count % context_words != 0)
        fails("a proved function is given contexts that are not whole");
    record(pieces, 7);
    asked.bound = bound;
    asked.numbers[0] = tenant;
    asked.numbers[1] = fd;
    asked.numbers[2] = byte_count;
    asked.numbers[3] = packets;
    asked.numbers[4] = room;
    asked.numbers[5] = word_count / context_words;
    asked.context_words = context_words;
    if (word_count * sizeof *contexts >= sizeof asked.context)
        memcpy(&asked.context, contexts, sizeof asked.context);
    return finish(pieces, 7);
}

int32_t bpfhost_c_save(bpfhost *handle, uint16_t tenant, size_t part, bpfhost_bytes *frames)
{
    const struct piece pieces[] = {{handle, BPFHOST_HANDLE_SIZE, true}, {frames, sizeof *frames, true}};
    record(pieces, 2);
    asked.numbers[0] = tenant;
    asked.numbers[1] = part;
    if (frames->at == NULL)
        fails("a proved function is given frames that lead nowhere");
    read_all(frames->at, frames->length);
    if (finish(pieces, 2) == BPFHOST_DONE) {
        frames->at = lent_reply;
        frames->length = sizeof lent_reply;
    }
    return asked.code;
}

int32_t bpfhost_c_memory_refused(bpfhost *handle, uint16_t tenant, bool *refused)
{
    const struct piece pieces[] = {{handle, BPFHOST_HANDLE_SIZE, true}, {refused, sizeof *refused, true}};
    uint8_t byte;
    record(pieces, 2);
    asked.numbers[0] = tenant;
    memcpy(&byte, refused, 1);
    if (byte > 1)
        fails("a proved function is given a bool that is neither false nor true");
    if (finish(pieces, 2) == BPFHOST_DONE)
        *refused = true;
    return asked.code;
}

int32_t bpfhost_c_status(bpfhost *handle, uint16_t tenant, bpfhost_counts *counts)
{
    const struct piece pieces[] = {{handle, BPFHOST_HANDLE_SIZE, true}, {counts, sizeof *counts, true}};
    const bpfhost_counts given = {1, 2, 3, 4, 5, true};
    record(pieces, 2);
    asked.numbers[0] = tenant;
    if (finish(pieces, 2) == BPFHOST_DONE)
        *counts = given;
    return asked.code;
}

/* Of descriptor 5 a map, of 6 a program, of others nothing. */
int32_t bpfhost_c_describe(bpfhost *handle, uint16_t tenant, uint32_t fd, bpfhost_described *described)
{
    const struct piece pieces[] = {{handle, BPFHOST_HANDLE_SIZE, true}, {described, sizeof *described, true}};
    const bpfhost_described none = {0, 0, 0, 0, 0, 0, 0}, map = {BPFHOST_MAP, 1, 4, 8, 16, 3, 0}, program = {BPFHOST_PROGRAM, 0, 0, 0, 0, 0, 9};
    record(pieces, 2);
    asked.numbers[0] = tenant;
    asked.numbers[1] = fd;
    if (finish(pieces, 2) == BPFHOST_DONE)
        *described = fd == 5 ? map : fd == 6 ? program : none;
    return asked.code;
}

/* Of descriptor 6, the program. Of others it is ten instructions, for bpfhost_run_bounded_scattered: no call of which the test counts. */
int32_t bpfhost_c_program_cost(bpfhost *handle, uint16_t tenant, uint32_t fd, bpfhost_cost *cost)
{
    const struct piece pieces[] = {{handle, BPFHOST_HANDLE_SIZE, true}, {cost, sizeof *cost, true}};
    const bpfhost_cost ten = {10, 1}, program = {12, 1};
    if (handle == NULL || cost == NULL)
        fails("a proved function is given a null pointer");
    if (fd != 6) {
        if (asked.code == BPFHOST_DONE)
            *cost = ten;
        return asked.code;
    }
    record(pieces, 2);
    asked.numbers[0] = tenant;
    asked.numbers[1] = fd;
    if (finish(pieces, 2) == BPFHOST_DONE)
        *cost = program;
    return asked.code;
}

int32_t bpfhost_c_verify(bpfhost *handle, uint16_t tenant, const uint8_t *slots, size_t slots_length, uint32_t style, uint8_t *room,
                         size_t room_length, bpfhost_logged *logged)
{
    const struct piece pieces[] = {
        {handle, BPFHOST_HANDLE_SIZE, true}, {slots, slots_length, false}, {room, room_length, true}, {logged, sizeof *logged, true}};
    const bpfhost_logged given = {77, true};
    record(pieces, 4);
    asked.numbers[0] = tenant;
    asked.numbers[1] = slots_length;
    asked.numbers[2] = style;
    asked.numbers[3] = room_length;
    if (finish(pieces, 4) == BPFHOST_DONE)
        *logged = given;
    return asked.code;
}

/* It refuses the slots, if there are none. */
int32_t bpfhost_c_prepare(bpfhost_prepared *prepared, const uint8_t *slots, size_t slots_length, const bpfhost_descriptor *descriptors,
                          size_t descriptor_count, bpfhost_refusal *refusal)
{
    const struct piece pieces[] = {{prepared, BPFHOST_HANDLE_SIZE, true},
                                   {slots, slots_length, false},
                                   {descriptors, descriptor_count * sizeof *descriptors, false},
                                   {refusal, sizeof *refusal, true}};
    const bpfhost_refusal none = {0, 0, 0}, given = {-13, 7, 20};
    record(pieces, 4);
    asked.numbers[0] = slots_length;
    asked.numbers[1] = descriptor_count;
    if (finish(pieces, 4) == BPFHOST_DONE)
        *refusal = slots_length == 0 ? given : none;
    return asked.code;
}

int32_t bpfhost_c_install(bpfhost *handle, uint16_t tenant, bpfhost_prepared *prepared, int32_t *status)
{
    const struct piece pieces[] = {{handle, BPFHOST_HANDLE_SIZE, true}, {prepared, BPFHOST_HANDLE_SIZE, true}, {status, sizeof *status, true}};
    record(pieces, 3);
    asked.numbers[0] = tenant;
    if (finish(pieces, 3) == BPFHOST_DONE)
        *status = 9;
    return asked.code;
}

void bpfhost_c_prepared_free(bpfhost_prepared *prepared)
{
    const struct piece pieces[] = {{prepared, BPFHOST_HANDLE_SIZE, true}};
    record(pieces, 1);
    (void)finish(pieces, 1);
}

void bpfhost_c_free(bpfhost *handle)
{
    const struct piece pieces[] = {{handle, BPFHOST_HANDLE_SIZE, true}};
    record(pieces, 1);
    (void)finish(pieces, 1);
}

#endif
