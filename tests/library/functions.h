/* The functions of bpfhost.h that may write something: their objects, how they are called, and what a call has to do.
 *
 * Not here, since they write nothing: bpfhost_pair_code, bpfhost_memory_of, bpfhost_lent_code, bpfhost_bytes_at, bpfhost_frame_code, bpfhost_may_empty,
 * bpfhost_word_of, bpfhost_are_beside, bpfhost_are_disjoint, bpfhost_is_beside_lent, bpfhost_is_frame_right, bpfhost_are_packets_beside, bpfhost_are_written_beside,
 * bpfhost_is_run_right, bpfhost_are_scattered_beside, bpfhost_is_scattered_right, bpfhost_scattered_by_pairs,
 * bpfhost_context_at, bpfhost_contexts_code, bpfhost_packets_code, bpfhost_written_code, bpfhost_run_code, bpfhost_run_up_to,
 * bpfhost_scattered_run_code, bpfhost_scattered_code, bpfhost_span_code, bpfhost_scattered_status, bpfhost_may_copy,
 * bpfhost_code_text, bpfhost_reason_text, bpfhost_version, bpfhost_library_version, bpfhost_get16, bpfhost_get32, bpfhost_frame_of_tenant, bpfhost_are_of_one_tenant.
 * Since they test nothing: bpfhost_put16, bpfhost_put32,
 * bpfhost_put64, bpfhost_put_head, bpfhost_put_bytes, bpfhost_read_fields, bpfhost_give_as. In objects.c: bpfhost_are_apart, bpfhost_free. In saves.c, since it calls bpfhost_save_part again and again:
 * bpfhost_save. In scattered.c, since their packets lie anywhere: bpfhost_gather, bpfhost_run_some, bpfhost_run_anywhere,
 * bpfhost_run_scattered, bpfhost_allowed_packets, bpfhost_run_bounded_scattered, and bpfhost_run_given, which tests nothing; nor does
 * bpfhost_lend, which bpfhost_handle_lent and bpfhost_ask call, or bpfhost_copy, which bpfhost_handle calls. With these functions and
 * bpfhost_run_packets are tried bpfhost_handle_by_pairs, bpfhost_handle_lent_by_pairs, bpfhost_ask_by_pairs, bpfhost_run_by_pairs. In misuse.c: bpfhost_enter, bpfhost_leave, bpfhost_give_back. In
 * inspection.c: bpfhost_memory_held. In objects.c: bpfhost_prepared_free. By the commands that call them: bpfhost_result_code, bpfhost_object_code, bpfhost_set_result,
 * bpfhost_carry_out, bpfhost_carry_out_long, bpfhost_carry_out_on. */
#ifndef FUNCTIONS_H
#define FUNCTIONS_H

#include <bpfhost.h>
#include <stdalign.h>
#include "stubs.h"

#define MOST_OBJECTS 7
#define MOST_COUNTS 3
#define UNCOUNTED MOST_COUNTS

/* What is done with an object, and when it may be null. */
enum { READ = 0, WRITTEN = 1, EMPTIED = 2, MAY_BE_NULL = 4, NULL_IF_EMPTY = 8 };

/* An object of a function: `units` times `unit` bytes. */
struct object {
    const char *name;
    size_t unit, units, alignment;
    size_t count; /* which of the call's counts says how many units there are */
    unsigned uses;
    const uint8_t *content; /* null for any */
};

/* What a function is given: its objects and the counts of their units. */
struct given {
    void *at[MOST_OBJECTS];
    size_t counts[MOST_COUNTS];
};

/* The code here of a function that builds a frame, if it returns 0. */
#define REFUSED (-100)

struct function {
    const char *name;
    int (*call)(const struct given *given);
    /* Whether a call did what it should, with this code. It is asked if nothing is wrong. */
    bool (*holds)(const struct given *given, int code);
    bool builds;  /* a frame in its first object: then all its refusals are REFUSED */
    size_t least; /* of the first count, without what the others count; 0 if it may be any */
    size_t objects, counts;
    struct object object[MOST_OBJECTS];
};

/* The length of the frame that was built last. */
static size_t built;

static int code_of(size_t length)
{
    built = length;
    return length == 0 ? REFUSED : BPFHOST_DONE;
}

static bool is_marked(const void *at, size_t length)
{
    for (size_t i = 0; i < length; i++)
        if (((const uint8_t *)at)[i] != MARK)
            return false;
    return true;
}

static const bpfhost_memory *memory_of(const struct given *given)
{
    return (const bpfhost_memory *)given->at[0];
}

/* Whether one proved function was called, with the handle and, if it has a length, the frame, and its code came back; if that is
 * DONE, with its mark on the handle. */
static bool is_asked(const struct given *given, size_t frame_length, int code)
{
    return asked.calls == 1 && code == asked.code && asked.at[0] == given->at[0]
        && (frame_length == 0 || asked.at[1] == given->at[1])
        && (code != BPFHOST_DONE || is_marked(given->at[0], BPFHOST_HANDLE_SIZE));
}

static int call_random_seed(const struct given *given)
{
    return bpfhost_random_seed((bpfhost_seed *)given->at[0]) ? BPFHOST_DONE : BPFHOST_ERR_NULL;
}

static bool holds_random_seed(const struct given *given, int code)
{
    return given->at[0] != NULL && code == BPFHOST_DONE;
}

static int call_new(const struct given *given)
{
    return bpfhost_new((bpfhost **)given->at[0], 17, (const bpfhost_seed *)given->at[1]);
}

/* The host that is made is that of the proved function, with its mark. A frame without bytes then shows the buffer for replies. */
static bool holds_new(const struct given *given, int code)
{
    const bpfhost_seed *seed = (const bpfhost_seed *)given->at[1];
    bool is_made = asked.calls == 1;
    if (code == BPFHOST_DONE) {
        bpfhost *made = *(bpfhost **)given->at[0];
        is_made = asked.at[0] == made && is_marked(made, BPFHOST_HANDLE_SIZE) && asked.calls == 2 && asked.numbers[0] == 0
               && bpfhost_memory_of(made)->replies == lent_reply;
        free(made);
    }
    return is_made && code == asked.code && asked.made[0] == 17 && asked.made[1] == seed->words[0] && asked.made[2] == seed->words[1];
}

static int call_handle(const struct given *given)
{
    return bpfhost_handle((bpfhost *)given->at[0], given->at[1], given->counts[0], given->at[2], given->counts[1],
                          (size_t *)given->at[3]);
}

static bool holds_handle(const struct given *given, int code)
{
    return is_asked(given, given->counts[0], code) && asked.numbers[0] == given->counts[0] && asked.numbers[1] == given->counts[1]
        && asked.at[2] == given->at[2] && asked.at[3] == given->at[3]
        && (code != BPFHOST_DONE
            || (is_marked(given->at[2], given->counts[1]) && is_marked(given->at[3], sizeof(size_t))));
}

static int call_handle_lent(const struct given *given)
{
    return bpfhost_handle_lent((bpfhost *)given->at[0], given->at[1], given->counts[0], (bpfhost_bytes *)given->at[2]);
}

static bool holds_handle_lent(const struct given *given, int code)
{
    const bpfhost_bytes *reply = (const bpfhost_bytes *)given->at[2];
    return is_asked(given, given->counts[0], code) && asked.numbers[0] == given->counts[0] && asked.at[2] == reply
        && (code != BPFHOST_DONE || (reply->at == lent_reply && reply->length == sizeof lent_reply));
}

/* Whether a reply is `lent_reply`, read at `bytes`. */
static bool is_read(const bpfhost_reply *reply, const uint8_t *bytes)
{
    return reply->tenant == 1 && reply->command == BPFHOST_PROG_LOAD && reply->status == -13 && reply->payload == bytes + 12
        && reply->payload_length == 6 && reply->result == 0 && reply->slot == 7 && reply->reason == 20;
}

static int call_ask(const struct given *given)
{
    return bpfhost_ask((bpfhost *)given->at[0], given->at[1], given->counts[0], (bpfhost_reply *)given->at[2]);
}

static bool holds_ask(const struct given *given, int code)
{
    return is_asked(given, given->counts[0], code) && asked.numbers[0] == given->counts[0]
        && (code != BPFHOST_DONE || is_read((const bpfhost_reply *)given->at[2], lent_reply));
}

/* Replies of another version of the header: without their last field, and with one more. */
#define SHORTER_REPLY offsetof(bpfhost_reply, slot)
#define LONGER_REPLY (sizeof(bpfhost_reply) + 8)

/* Whether a reply of a size has the bytes of another one, as far as it reaches, and zeros after them. */
static bool is_part_of(const uint8_t *sized, size_t size, const bpfhost_reply *whole)
{
    size_t known = size < sizeof *whole ? size : sizeof *whole;
    for (size_t i = known; i < size; i++)
        if (sized[i] != 0)
            return false;
    return memcmp(sized, whole, offsetof(bpfhost_reply, slot) < known ? offsetof(bpfhost_reply, slot) : known) == 0
        && (size < sizeof *whole || (((const bpfhost_reply *)(const void *)sized)->slot == whole->slot
                                     && ((const bpfhost_reply *)(const void *)sized)->reason == whole->reason));
}

static int call_ask_sized(const struct given *given)
{
    return bpfhost_ask_sized((bpfhost *)given->at[0], given->at[1], given->counts[0], given->at[2], LONGER_REPLY);
}

static bool holds_ask_sized(const struct given *given, int code)
{
    bpfhost_reply whole;
    return is_asked(given, given->counts[0], code) && asked.numbers[0] == given->counts[0]
        && bpfhost_read_reply(lent_reply, sizeof lent_reply, &whole) == BPFHOST_DONE
        && (code != BPFHOST_DONE || is_part_of((const uint8_t *)given->at[2], LONGER_REPLY, &whole));
}

static int call_read_reply_sized(const struct given *given)
{
    return bpfhost_read_reply_sized(given->at[0], given->counts[0], given->at[1], SHORTER_REPLY);
}

static bool holds_read_reply_sized(const struct given *given, int code)
{
    bpfhost_reply whole;
    return code == BPFHOST_DONE && bpfhost_read_reply(given->at[0], given->counts[0], &whole) == BPFHOST_DONE
        && is_part_of((const uint8_t *)given->at[1], SHORTER_REPLY, &whole);
}

static int call_read_reply(const struct given *given)
{
    return bpfhost_read_reply(given->at[0], given->counts[0], (bpfhost_reply *)given->at[1]);
}

static bool holds_read_reply(const struct given *given, int code)
{
    return code == BPFHOST_DONE && is_read((const bpfhost_reply *)given->at[1], (const uint8_t *)given->at[0]);
}

/* Whether ten words are those of a context, or zeros for null. */
static bool are_words_of(const void *words, const void *context)
{
    static const uint8_t zeros[sizeof(bpfhost_context)] = {0};
    return memcmp(words, context == NULL ? zeros : context, sizeof zeros) == 0;
}

static int call_context_words(const struct given *given)
{
    return bpfhost_context_words((const bpfhost_context *)given->at[0], (uint32_t *)given->at[1]);
}

static bool holds_context_words(const struct given *given, int code)
{
    return code == BPFHOST_DONE && are_words_of(given->at[1], given->at[0]);
}

static int call_run_packets(const struct given *given)
{
    return bpfhost_run_packets((bpfhost *)given->at[0], 258, 4, (const bpfhost_context *)given->at[1], given->at[2],
                               given->counts[0], (const size_t *)given->at[3], given->counts[1], (uint32_t *)given->at[4],
                               (int32_t *)given->at[5]);
}

/* Whether the proved function was asked to run these packets, with a bound, on contexts of which the first one is at an address, or zeros for
 * null. */
static bool ran_packets(const struct given *given, uint64_t bound, const void *context, size_t contexts, int code)
{
    size_t packets = given->counts[1];
    return is_asked(given, 0, code) && asked.bound == bound && asked.numbers[0] == 258 && asked.numbers[1] == 4
        && asked.numbers[2] == given->counts[0] && asked.numbers[3] == packets && asked.numbers[4] == packets && asked.numbers[5] == contexts && asked.context_words == 10
        && are_words_of(&asked.context, context) && (context == NULL || asked.at[1] == context)
        && (given->counts[0] == 0 || asked.at[2] == given->at[2])
        && (packets == 0 || (asked.at[3] == given->at[3] && asked.at[4] == given->at[4]))
        && (code != BPFHOST_DONE
            || (is_marked(given->at[4], packets * sizeof(uint32_t)) && is_marked(given->at[5], sizeof(int32_t))));
}

static bool holds_run_packets(const struct given *given, int code)
{
    return ran_packets(given, 0, given->at[1], 1, code);
}

static int call_run_packets_with(const struct given *given)
{
    return bpfhost_run_packets_with((bpfhost *)given->at[0], 258, 4, (const bpfhost_context *)given->at[1], given->counts[2],
                                    given->at[2], given->counts[0], (const size_t *)given->at[3], given->counts[1],
                                    (uint32_t *)given->at[4], (int32_t *)given->at[5]);
}

/* No contexts are one with zeros. */
static bool holds_run_packets_with(const struct given *given, int code)
{
    size_t contexts = given->counts[2];
    return ran_packets(given, 0, contexts == 0 ? NULL : given->at[1], contexts == 0 ? 1 : contexts, code);
}

/* Contexts of another version of the header, with one word more. */
#define LONGER_CONTEXT (sizeof(bpfhost_context) + sizeof(uint32_t))

static int call_run_packets_sized(const struct given *given)
{
    return bpfhost_run_packets_sized((bpfhost *)given->at[0], 258, 4, given->at[1], LONGER_CONTEXT, given->counts[2], given->at[2],
                                     given->counts[0], (const size_t *)given->at[3], given->counts[1], (uint32_t *)given->at[4],
                                     (int32_t *)given->at[5]);
}

static bool holds_run_packets_sized(const struct given *given, int code)
{
    size_t contexts = given->counts[2], words = asked.context_words;
    asked.context_words = 10;
    return words == (contexts == 0 ? 10 : 11)
        && ran_packets(given, 0, contexts == 0 ? NULL : given->at[1], contexts == 0 ? 1 : contexts, code);
}

/* A bounded run: its last object is the number of packets that were run. */
#define BOUND ((uint64_t)1 << 32)

static bool ran_bounded(const struct given *given, size_t contexts, int code)
{
    return ran_packets(given, BOUND, contexts == 0 ? NULL : given->at[1], contexts == 0 ? 1 : contexts, code)
        && (code != BPFHOST_DONE || is_marked(given->at[6], sizeof(size_t)));
}

static int call_run_bounded(const struct given *given)
{
    return bpfhost_run_bounded((bpfhost *)given->at[0], 258, 4, (const bpfhost_context *)given->at[1], given->at[2], given->counts[0],
                               (const size_t *)given->at[3], given->counts[1], BOUND, (uint32_t *)given->at[4], (int32_t *)given->at[5],
                               (size_t *)given->at[6]);
}

static bool holds_run_bounded(const struct given *given, int code)
{
    return ran_bounded(given, given->at[1] == NULL ? 0 : 1, code);
}

static int call_run_bounded_with(const struct given *given)
{
    return bpfhost_run_bounded_with((bpfhost *)given->at[0], 258, 4, (const bpfhost_context *)given->at[1], given->counts[2],
                                    given->at[2], given->counts[0], (const size_t *)given->at[3], given->counts[1], BOUND,
                                    (uint32_t *)given->at[4], (int32_t *)given->at[5], (size_t *)given->at[6]);
}

static bool holds_run_bounded_with(const struct given *given, int code)
{
    return ran_bounded(given, given->counts[2], code);
}

static int call_run_bounded_sized(const struct given *given)
{
    return bpfhost_run_bounded_sized((bpfhost *)given->at[0], 258, 4, given->at[1], LONGER_CONTEXT, given->counts[2], given->at[2],
                                     given->counts[0], (const size_t *)given->at[3], given->counts[1], BOUND, (uint32_t *)given->at[4],
                                     (int32_t *)given->at[5], (size_t *)given->at[6]);
}

static bool holds_run_bounded_sized(const struct given *given, int code)
{
    size_t contexts = given->counts[2], words = asked.context_words;
    asked.context_words = 10;
    return words == (contexts == 0 ? 10 : 11) && ran_bounded(given, contexts, code);
}

static int call_save_part(const struct given *given)
{
    return bpfhost_save_part((bpfhost *)given->at[0], 258, 3, (bpfhost_bytes *)given->at[1]);
}

static bool holds_save_part(const struct given *given, int code)
{
    const bpfhost_bytes *frames = (const bpfhost_bytes *)given->at[1];
    return is_asked(given, 0, code) && asked.numbers[0] == 258 && asked.numbers[1] == 3
        && (code != BPFHOST_DONE
            || (frames->at == lent_reply && frames->length == sizeof lent_reply && memory_of(given)->part.at == lent_reply
                && memory_of(given)->part.length == sizeof lent_reply));
}

/* A frame of tenant 258 with its length field, which closes descriptor 3. */
static const uint8_t closes[12] = {8, 0, 0, 0, 2, 1, 0, 1, 3};

/* The reply to its one frame is `lent_reply`, which refuses it: then it writes what it writes if it is DONE. */
static int call_restore(const struct given *given)
{
    int code = bpfhost_restore((bpfhost *)given->at[0], 258, given->at[1], given->counts[0], (int32_t *)given->at[2]);
    return code == BPFHOST_ERR_REFUSED && *(int32_t *)given->at[2] == -13 ? BPFHOST_DONE : code;
}

static bool holds_restore(const struct given *given, int code)
{
    if (given->counts[0] == 0)
        return code == BPFHOST_DONE && asked.calls == 0 && *(const int32_t *)given->at[2] == 0;
    return asked.calls == 1 && code == asked.code && asked.at[0] == given->at[0] && asked.numbers[0] == 8
        && asked.at[1] == (const uint8_t *)given->at[1] + 4;
}

static int call_restore_as(const struct given *given)
{
    int code = bpfhost_restore_as((bpfhost *)given->at[0], 3, given->at[1], given->counts[0], (int32_t *)given->at[2]);
    return code == BPFHOST_ERR_REFUSED && *(int32_t *)given->at[2] == -13 ? BPFHOST_DONE : code;
}

/* The frame that the proved function gets is a copy with another tenant's number. */
static bool holds_restore_as(const struct given *given, int code)
{
    if (given->counts[0] == 0)
        return code == BPFHOST_DONE && asked.calls == 0 && *(const int32_t *)given->at[2] == 0;
    return asked.calls == 1 && code == asked.code && asked.at[0] == given->at[0] && asked.numbers[0] == 8
        && asked.at[1] != (const uint8_t *)given->at[1] + 4;
}

static int call_memory_refused(const struct given *given)
{
    return bpfhost_memory_refused((bpfhost *)given->at[0], 258, (bool *)given->at[1]);
}

static bool holds_memory_refused(const struct given *given, int code)
{
    return is_asked(given, 0, code) && asked.numbers[0] == 258 && (code != BPFHOST_DONE || *(const uint8_t *)given->at[1] == 1);
}

static int call_counts_of(const struct given *given)
{
    return bpfhost_counts_of((bpfhost *)given->at[0], 258, (bpfhost_counts *)given->at[1]);
}

static bool holds_counts(const struct given *given, int code)
{
    const bpfhost_counts *counts = (const bpfhost_counts *)given->at[1];
    return is_asked(given, 0, code) && asked.numbers[0] == 258
        && (code != BPFHOST_DONE || (counts->maps == 1 && counts->entries == 2 && counts->descriptors == 5 && counts->memory_refused));
}

static int call_status(const struct given *given)
{
    return bpfhost_status((bpfhost *)given->at[0], 258, BPFHOST_STATUS_VALUE_BYTES, (uint64_t *)given->at[1]);
}

static bool holds_status(const struct given *given, int code)
{
    return is_asked(given, 0, code) && asked.numbers[0] == 258 && (code != BPFHOST_DONE || *(const uint64_t *)given->at[1] == 3);
}

static int call_describe(const struct given *given)
{
    return bpfhost_describe((bpfhost *)given->at[0], 258, 5, (bpfhost_described *)given->at[1]);
}

static bool holds_described(const struct given *given, int code)
{
    const bpfhost_described *described = (const bpfhost_described *)given->at[1];
    return is_asked(given, 0, code) && asked.numbers[0] == 258 && asked.numbers[1] == 5
        && (code != BPFHOST_DONE || (described->kind == BPFHOST_MAP && described->max_entries == 16 && described->entries == 3));
}

static int call_program_cost(const struct given *given)
{
    return bpfhost_program_cost((bpfhost *)given->at[0], 258, 6, (bpfhost_cost *)given->at[1]);
}

static bool holds_program_cost(const struct given *given, int code)
{
    const bpfhost_cost *cost = (const bpfhost_cost *)given->at[1];
    return is_asked(given, 0, code) && asked.numbers[0] == 258 && asked.numbers[1] == 6
        && (code != BPFHOST_DONE || (cost->instructions == 12 && cost->calls == 1));
}

static int call_list(const struct given *given)
{
    return bpfhost_list((bpfhost *)given->at[0], 258, (bpfhost_listed *)given->at[1], given->counts[0], (size_t *)given->at[2]);
}

/* Two descriptors are open, whatever the room; the cost is asked only of the program. */
static bool holds_list(const struct given *given, int code)
{
    const bpfhost_listed *listed = (const bpfhost_listed *)given->at[1];
    return asked.calls == (asked.code == BPFHOST_DONE ? BPFHOST_MOST_DESCRIPTORS + 1 : 1) && code == asked.code && asked.at[0] == given->at[0]
        && asked.numbers[0] == 258
        && (code != BPFHOST_DONE
            || (*(const size_t *)given->at[2] == 2
                && (given->counts[0] < 1 || (listed[0].fd == 5 && listed[0].is.kind == BPFHOST_MAP && listed[0].cost.instructions == 0))
                && (given->counts[0] < 2
                    || (listed[1].fd == 6 && listed[1].is.slots == 9 && listed[1].cost.instructions == 12 && listed[1].cost.calls == 1))));
}

static int call_verify_as(const struct given *given)
{
    return bpfhost_verify_as((bpfhost *)given->at[0], 258, given->at[1], given->counts[0], BPFHOST_LOG_GRAPH, (char *)given->at[2],
                             given->counts[1], (bpfhost_logged *)given->at[3]);
}

static bool holds_verify_as(const struct given *given, int code)
{
    const bpfhost_logged *logged = (const bpfhost_logged *)given->at[3];
    return is_asked(given, given->counts[0], code) && asked.numbers[0] == 258 && asked.numbers[1] == 8 * given->counts[0]
        && asked.numbers[2] == 2 && asked.numbers[3] == given->counts[1] && (given->counts[1] == 0 || asked.at[2] == given->at[2])
        && (code != BPFHOST_DONE || (logged->length == 77 && logged->is_accepted));
}

static int call_verify(const struct given *given)
{
    return bpfhost_verify((bpfhost *)given->at[0], 258, given->at[1], given->counts[0], (char *)given->at[2], given->counts[1],
                          (size_t *)given->at[3]);
}

static bool holds_verify(const struct given *given, int code)
{
    return is_asked(given, given->counts[0], code) && asked.numbers[1] == 8 * given->counts[0] && asked.numbers[2] == 0
        && (code != BPFHOST_DONE || *(const size_t *)given->at[3] == 77);
}

static int call_prepare(const struct given *given)
{
    return bpfhost_prepare(given->at[0], given->counts[0], (const bpfhost_descriptor *)given->at[1], given->counts[1],
                           (bpfhost_prepared **)given->at[2], (bpfhost_result *)given->at[3]);
}

/* No slots are refused here, and others are accepted. */
static bool holds_prepare(const struct given *given, int code)
{
    const bpfhost_result *out = (const bpfhost_result *)given->at[3];
    bool is_made = asked.calls == 1 && asked.numbers[0] == 8 * given->counts[0] && asked.numbers[1] == given->counts[1];
    if (code == BPFHOST_DONE) {
        bpfhost_prepared *made = *(bpfhost_prepared **)given->at[2];
        if (given->counts[0] == 0)
            is_made = is_made && made == NULL && out->status == -13 && out->slot == 7 && out->reason == 20;
        else
            is_made = is_made && asked.at[0] == made && is_marked(made, BPFHOST_HANDLE_SIZE) && out->status == 0 && out->slot == 0;
        free(made);
    }
    return is_made && code == asked.code;
}

static int call_install(const struct given *given)
{
    return bpfhost_install((bpfhost *)given->at[0], 258, (bpfhost_prepared *)given->at[1], (bpfhost_result *)given->at[2]);
}

static bool holds_install(const struct given *given, int code)
{
    const bpfhost_result *out = (const bpfhost_result *)given->at[2];
    return is_asked(given, 0, code) && asked.at[1] == given->at[1] && asked.numbers[0] == 258
        && (code != BPFHOST_DONE || (out->status == 9 && out->result == 0 && out->slot == 0 && out->length == 0));
}

static int call_frame_begin(const struct given *given)
{
    return code_of(bpfhost_frame_begin(given->at[0], given->counts[0], 9, 2, 1, BPFHOST_CLOSE, 3) == NULL ? 0 : 8);
}

static int call_frame_map_create(const struct given *given)
{
    return code_of(bpfhost_frame_map_create(given->at[0], given->counts[0], 1, BPFHOST_HASH, 4, 8, 16, 0));
}

static int call_frame_of_key(const struct given *given)
{
    return code_of(bpfhost_frame_of_key(given->at[0], given->counts[0], 1, BPFHOST_MAP_LOOKUP, 3, given->at[1], given->counts[1]));
}

static int call_frame_map_lookup(const struct given *given)
{
    return code_of(bpfhost_frame_map_lookup(given->at[0], given->counts[0], 1, 3, given->at[1], given->counts[1]));
}

static int call_frame_map_delete(const struct given *given)
{
    return code_of(bpfhost_frame_map_delete(given->at[0], given->counts[0], 1, 3, given->at[1], given->counts[1]));
}

static int call_frame_map_next_key(const struct given *given)
{
    return code_of(bpfhost_frame_map_next_key(given->at[0], given->counts[0], 1, 3, given->at[1], given->counts[1]));
}

static int call_frame_map_update(const struct given *given)
{
    return code_of(bpfhost_frame_map_update(given->at[0], given->counts[0], 1, 3, BPFHOST_ANY, given->at[1], given->counts[1],
                                            given->at[2], given->counts[2]));
}

static int call_frame_prog_load(const struct given *given)
{
    return code_of(bpfhost_frame_prog_load(given->at[0], given->counts[0], 1, BPFHOST_SOCKET_FILTER, given->at[1],
                                           given->counts[1]));
}

static int call_frame_test_run_head(const struct given *given)
{
    return code_of(bpfhost_frame_test_run_head(given->at[0], given->counts[0], 1, 4, (const bpfhost_context *)given->at[1]));
}

static int call_frame_prog_test_run(const struct given *given)
{
    return code_of(bpfhost_frame_prog_test_run(given->at[0], given->counts[0], 1, 4, (const bpfhost_context *)given->at[1],
                                               given->at[2], given->counts[1]));
}

static int call_frame_close(const struct given *given)
{
    return code_of(bpfhost_frame_close(given->at[0], given->counts[0], 1, 4));
}

/* A frame for tenant 1 has so many bytes, and ends with a copy of bytes. */
static bool ends_with(const struct given *given, size_t length, const void *bytes, size_t count)
{
    const uint8_t *frame = (const uint8_t *)given->at[0];
    return built == length && bpfhost_get16(frame) == 1 && (count == 0 || memcmp(frame + length - count, bytes, count) == 0);
}

static bool holds_begun(const struct given *given, int code)
{
    return code == BPFHOST_DONE && ends_with(given, 8, NULL, 0);
}

static bool holds_map_create(const struct given *given, int code)
{
    return code == BPFHOST_DONE && ends_with(given, 24, NULL, 0);
}

static bool holds_key(const struct given *given, int code)
{
    return code == BPFHOST_DONE && ends_with(given, 8 + given->counts[1], given->at[1], given->counts[1]);
}

static bool holds_map_update(const struct given *given, int code)
{
    size_t keys = given->counts[1], values = given->counts[2];
    return code == BPFHOST_DONE && ends_with(given, 16 + keys + values, given->at[2], values)
        && (keys == 0 || memcmp((const uint8_t *)given->at[0] + 16, given->at[1], keys) == 0);
}

static bool holds_prog_load(const struct given *given, int code)
{
    return code == BPFHOST_DONE && ends_with(given, 8 + 8 * given->counts[1], given->at[1], 8 * given->counts[1]);
}

static bool holds_test_run_head(const struct given *given, int code)
{
    return code == BPFHOST_DONE && ends_with(given, 48, NULL, 0)
        && are_words_of((const uint8_t *)given->at[0] + 8, given->at[1]);
}

static bool holds_prog_test_run(const struct given *given, int code)
{
    return code == BPFHOST_DONE && ends_with(given, 48 + given->counts[1], given->at[2], given->counts[1])
        && are_words_of((const uint8_t *)given->at[0] + 8, given->at[1]);
}

/* ---- commands, whose result is the last object */

#define COMMAND_HOST ((bpfhost *)given->at[0])
#define LENT_STATUS (-13)

/* Whether the proved function was given a frame of this length, and the result is that of `lent_reply`. */
static bool is_carried_out(const struct given *given, size_t frame_length, const bpfhost_result *out, int code)
{
    return asked.calls == 1 && code == asked.code && asked.at[0] == given->at[0] && asked.numbers[0] == frame_length
        && (code != BPFHOST_DONE
            || (is_marked(given->at[0], BPFHOST_HANDLE_SIZE) && out->status == LENT_STATUS && out->result == 0 && out->slot == 7
                && out->reason == 20 && out->length == 0));
}

static int call_map_create(const struct given *given)
{
    return bpfhost_map_create(COMMAND_HOST, 1, (const bpfhost_map_attr *)given->at[1], (bpfhost_result *)given->at[2]);
}

static bool holds_create(const struct given *given, int code)
{
    return is_carried_out(given, 24, (const bpfhost_result *)given->at[2], code);
}

/* Attributes of an older version of the header, without flags. */
#define SHORTER_ATTR offsetof(bpfhost_map_attr, flags)

static int call_map_create_sized(const struct given *given)
{
    return bpfhost_map_create_sized(COMMAND_HOST, 1, given->at[1], SHORTER_ATTR, (bpfhost_result *)given->at[2]);
}

static int call_map_lookup(const struct given *given)
{
    return bpfhost_map_lookup(COMMAND_HOST, 1, 3, given->at[1], given->counts[0], given->at[2], given->counts[1],
                              (bpfhost_result *)given->at[3]);
}

static int call_map_get_next_key(const struct given *given)
{
    return bpfhost_map_get_next_key(COMMAND_HOST, 1, 3, given->at[1], given->counts[0], given->at[2], given->counts[1],
                                    (bpfhost_result *)given->at[3]);
}

static bool holds_copied(const struct given *given, int code)
{
    return is_carried_out(given, 8 + given->counts[0], (const bpfhost_result *)given->at[3], code);
}

static int call_map_update(const struct given *given)
{
    return bpfhost_map_update(COMMAND_HOST, 1, 3, given->at[1], given->counts[0], given->at[2], given->counts[1], BPFHOST_ANY,
                              (bpfhost_result *)given->at[3]);
}

static bool holds_updated(const struct given *given, int code)
{
    return is_carried_out(given, 16 + given->counts[0] + given->counts[1], (const bpfhost_result *)given->at[3], code);
}

static int call_map_delete(const struct given *given)
{
    return bpfhost_map_delete(COMMAND_HOST, 1, 3, given->at[1], given->counts[0], (bpfhost_result *)given->at[2]);
}

static bool holds_deleted(const struct given *given, int code)
{
    return is_carried_out(given, 8 + given->counts[0], (const bpfhost_result *)given->at[2], code);
}

static int call_prog_load(const struct given *given)
{
    return bpfhost_prog_load(COMMAND_HOST, 1, BPFHOST_SOCKET_FILTER, given->at[1], given->counts[0], (bpfhost_result *)given->at[2]);
}

static bool holds_loaded(const struct given *given, int code)
{
    return is_carried_out(given, 8 + 8 * given->counts[0], (const bpfhost_result *)given->at[2], code);
}

static int call_prog_test_run(const struct given *given)
{
    return bpfhost_prog_test_run(COMMAND_HOST, 258, 4, (const bpfhost_context *)given->at[1], given->at[2], given->counts[0],
                                 (bpfhost_result *)given->at[3]);
}

static int call_prog_test_run_sized(const struct given *given)
{
    return bpfhost_prog_test_run_sized(COMMAND_HOST, 258, 4, given->at[1], LONGER_CONTEXT, given->at[2], given->counts[0],
                                       (bpfhost_result *)given->at[3]);
}

/* One packet is run by the proved function for many; the status is its mark, which is no success. */
static bool holds_run_once(const struct given *given, int code)
{
    const bpfhost_result *out = (const bpfhost_result *)given->at[3];
    return asked.calls == 1 && code == asked.code && asked.at[0] == given->at[0] && asked.numbers[0] == 258 && asked.numbers[1] == 4
        && asked.bound == 0 && asked.numbers[2] == given->counts[0] && asked.numbers[3] == 1 && asked.numbers[4] == 1 && asked.numbers[5] == 1
        && (given->at[1] == NULL || asked.at[1] == given->at[1]) && (given->counts[0] == 0 || asked.at[2] == given->at[2])
        && (code != BPFHOST_DONE
            || (is_marked(&out->status, sizeof out->status) && out->result == 0 && out->slot == 0 && out->reason == 0 && out->length == 0));
}

/* The stub's status says of no descriptor that it was open. */
static int call_close_all(const struct given *given)
{
    return bpfhost_close_all(COMMAND_HOST, 1, (bpfhost_result *)given->at[1]);
}

static bool holds_closed_all(const struct given *given, int code)
{
    const bpfhost_result *out = (const bpfhost_result *)given->at[1];
    return asked.calls == (asked.code == BPFHOST_DONE ? BPFHOST_MOST_DESCRIPTORS : 1) && code == asked.code && asked.at[0] == given->at[0]
        && asked.numbers[0] == 8
        && (code != BPFHOST_DONE || (out->status == 0 && out->result == 0 && out->slot == 0 && out->reason == 0 && out->length == 0));
}

static int call_close(const struct given *given)
{
    return bpfhost_close(COMMAND_HOST, 1, 3, (bpfhost_result *)given->at[1]);
}

static bool holds_closed(const struct given *given, int code)
{
    return is_carried_out(given, 8, (const bpfhost_result *)given->at[1], code);
}

#define ONE(name, type, uses) {name, sizeof(type), 1, alignof(type), UNCOUNTED, uses, NULL}
#define BYTES(name, units, count, uses) {name, 1, units, 1, count, uses, NULL}
/* The memory of a host that has lent nothing. */
static const uint8_t lent_nothing[sizeof(bpfhost_memory)] = {0};
#define HOST {"host", sizeof(bpfhost_memory), 1, alignof(bpfhost_memory), UNCOUNTED, WRITTEN, lent_nothing}
#define FRAME BYTES("frame", 12, 0, READ | NULL_IF_EMPTY)
#define CONTEXT ONE("context", bpfhost_context, READ | MAY_BE_NULL)
#define ROOM(units) BYTES("room", units, 0, WRITTEN)
#define KEY BYTES("key", 4, 1, READ | NULL_IF_EMPTY)

#define COMMAND_KEY BYTES("key", 4, 0, READ | NULL_IF_EMPTY)
#define RESULT ONE("result", bpfhost_result, WRITTEN)

static const struct function random_seed = {
    "bpfhost_random_seed", call_random_seed, holds_random_seed, false, 0, 1, 0, {ONE("seed", bpfhost_seed, WRITTEN)}};

static const struct function functions[] = {
    {"bpfhost_new", call_new, holds_new, false, 0, 2, 0, {ONE("host", bpfhost *, WRITTEN), ONE("seed", bpfhost_seed, READ)}},
    {"bpfhost_handle", call_handle, holds_handle, false, 0, 4, 2,
     {HOST, FRAME, BYTES("room", 20, 1, WRITTEN), ONE("written", size_t, WRITTEN)}},
    {"bpfhost_handle_lent", call_handle_lent, holds_handle_lent, false, 0, 3, 1,
     {HOST, FRAME, ONE("reply", bpfhost_bytes, WRITTEN | EMPTIED)}},
    {"bpfhost_ask", call_ask, holds_ask, false, 0, 3, 1, {HOST, FRAME, ONE("reply", bpfhost_reply, WRITTEN)}},
    {"bpfhost_map_create", call_map_create, holds_create, false, 0, 3, 0, {HOST, ONE("attr", bpfhost_map_attr, READ), RESULT}},
    {"bpfhost_map_create_sized", call_map_create_sized, holds_create, false, 0, 3, 0,
     {HOST, {"attr", SHORTER_ATTR, 1, 1, UNCOUNTED, READ, NULL}, RESULT}},
    {"bpfhost_map_lookup", call_map_lookup, holds_copied, false, 0, 4, 2,
     {HOST, COMMAND_KEY, BYTES("value", 8, 1, WRITTEN | NULL_IF_EMPTY), RESULT}},
    {"bpfhost_map_get_next_key", call_map_get_next_key, holds_copied, false, 0, 4, 2,
     {HOST, COMMAND_KEY, BYTES("next", 4, 1, WRITTEN | NULL_IF_EMPTY), RESULT}},
    {"bpfhost_map_update", call_map_update, holds_updated, false, 0, 4, 2,
     {HOST, COMMAND_KEY, BYTES("value", 8, 1, READ | NULL_IF_EMPTY), RESULT}},
    {"bpfhost_map_delete", call_map_delete, holds_deleted, false, 0, 3, 1, {HOST, COMMAND_KEY, RESULT}},
    {"bpfhost_prog_load", call_prog_load, holds_loaded, false, 0, 3, 1,
     {HOST, {"slots", 8, 2, 1, 0, READ | NULL_IF_EMPTY, NULL}, RESULT}},
    {"bpfhost_prog_test_run", call_prog_test_run, holds_run_once, false, 0, 4, 1,
     {HOST, CONTEXT, BYTES("packet", 12, 0, READ | NULL_IF_EMPTY), RESULT}},
    {"bpfhost_prog_test_run_sized", call_prog_test_run_sized, holds_run_once, false, 0, 4, 1,
     {HOST, {"context", LONGER_CONTEXT, 1, alignof(uint32_t), UNCOUNTED, READ | MAY_BE_NULL, NULL},
      BYTES("packet", 12, 0, READ | NULL_IF_EMPTY), RESULT}},
    {"bpfhost_close", call_close, holds_closed, false, 0, 2, 0, {HOST, RESULT}},
    {"bpfhost_close_all", call_close_all, holds_closed_all, false, 0, 2, 0, {HOST, RESULT}},
    {"bpfhost_read_reply", call_read_reply, holds_read_reply, false, sizeof lent_reply, 2, 1,
     {{"bytes", 1, sizeof lent_reply, 1, 0, READ, lent_reply}, ONE("reply", bpfhost_reply, WRITTEN)}},
    {"bpfhost_ask_sized", call_ask_sized, holds_ask_sized, false, 0, 3, 1,
     {HOST, FRAME, {"reply", LONGER_REPLY, 1, alignof(bpfhost_reply), UNCOUNTED, WRITTEN, NULL}}},
    {"bpfhost_read_reply_sized", call_read_reply_sized, holds_read_reply_sized, false, sizeof lent_reply, 2, 1,
     {{"bytes", 1, sizeof lent_reply, 1, 0, READ, lent_reply}, {"reply", SHORTER_REPLY, 1, alignof(bpfhost_reply), UNCOUNTED, WRITTEN, NULL}}},
    {"bpfhost_context_words", call_context_words, holds_context_words, false, 0, 2, 0,
     {CONTEXT, {"words", 4, 10, alignof(uint32_t), UNCOUNTED, WRITTEN, NULL}}},
    {"bpfhost_run_packets", call_run_packets, holds_run_packets, false, 0, 6, 2,
     {HOST, CONTEXT, BYTES("bytes", 11, 0, READ | NULL_IF_EMPTY),
      {"ends", sizeof(size_t), 3, alignof(size_t), 1, READ | NULL_IF_EMPTY, NULL},
      {"results", sizeof(uint32_t), 3, alignof(uint32_t), 1, WRITTEN | NULL_IF_EMPTY, NULL}, ONE("status", int32_t, WRITTEN)}},
    {"bpfhost_run_packets_with", call_run_packets_with, holds_run_packets_with, false, 0, 6, 3,
     {HOST, {"contexts", sizeof(bpfhost_context), 2, alignof(bpfhost_context), 2, READ | NULL_IF_EMPTY, NULL},
      BYTES("bytes", 11, 0, READ | NULL_IF_EMPTY), {"ends", sizeof(size_t), 3, alignof(size_t), 1, READ | NULL_IF_EMPTY, NULL},
      {"results", sizeof(uint32_t), 3, alignof(uint32_t), 1, WRITTEN | NULL_IF_EMPTY, NULL}, ONE("status", int32_t, WRITTEN)}},
    {"bpfhost_run_packets_sized", call_run_packets_sized, holds_run_packets_sized, false, 0, 6, 3,
     {HOST, {"contexts", LONGER_CONTEXT, 2, alignof(bpfhost_context), 2, READ | NULL_IF_EMPTY, NULL},
      BYTES("bytes", 11, 0, READ | NULL_IF_EMPTY), {"ends", sizeof(size_t), 3, alignof(size_t), 1, READ | NULL_IF_EMPTY, NULL},
      {"results", sizeof(uint32_t), 3, alignof(uint32_t), 1, WRITTEN | NULL_IF_EMPTY, NULL}, ONE("status", int32_t, WRITTEN)}},
    {"bpfhost_run_bounded", call_run_bounded, holds_run_bounded, false, 0, 7, 2,
     {HOST, CONTEXT, BYTES("bytes", 11, 0, READ | NULL_IF_EMPTY),
      {"ends", sizeof(size_t), 3, alignof(size_t), 1, READ | NULL_IF_EMPTY, NULL},
      {"results", sizeof(uint32_t), 3, alignof(uint32_t), 1, WRITTEN | NULL_IF_EMPTY, NULL}, ONE("status", int32_t, WRITTEN),
      ONE("ran", size_t, WRITTEN)}},
    {"bpfhost_run_bounded_with", call_run_bounded_with, holds_run_bounded_with, false, 0, 7, 3,
     {HOST, {"contexts", sizeof(bpfhost_context), 2, alignof(bpfhost_context), 2, READ | NULL_IF_EMPTY, NULL},
      BYTES("bytes", 11, 0, READ | NULL_IF_EMPTY), {"ends", sizeof(size_t), 3, alignof(size_t), 1, READ | NULL_IF_EMPTY, NULL},
      {"results", sizeof(uint32_t), 3, alignof(uint32_t), 1, WRITTEN | NULL_IF_EMPTY, NULL}, ONE("status", int32_t, WRITTEN),
      ONE("ran", size_t, WRITTEN)}},
    {"bpfhost_run_bounded_sized", call_run_bounded_sized, holds_run_bounded_sized, false, 0, 7, 3,
     {HOST, {"contexts", LONGER_CONTEXT, 2, alignof(bpfhost_context), 2, READ | NULL_IF_EMPTY, NULL},
      BYTES("bytes", 11, 0, READ | NULL_IF_EMPTY), {"ends", sizeof(size_t), 3, alignof(size_t), 1, READ | NULL_IF_EMPTY, NULL},
      {"results", sizeof(uint32_t), 3, alignof(uint32_t), 1, WRITTEN | NULL_IF_EMPTY, NULL}, ONE("status", int32_t, WRITTEN),
      ONE("ran", size_t, WRITTEN)}},
    {"bpfhost_save_part", call_save_part, holds_save_part, false, 0, 2, 0, {HOST, ONE("frames", bpfhost_bytes, WRITTEN)}},
    {"bpfhost_restore", call_restore, holds_restore, false, 0, 3, 1,
     {HOST, {"frames", 1, sizeof closes, 1, 0, READ | NULL_IF_EMPTY, closes}, ONE("status", int32_t, WRITTEN)}},
    {"bpfhost_restore_as", call_restore_as, holds_restore_as, false, 0, 3, 1,
     {HOST, {"frames", 1, sizeof closes, 1, 0, READ | NULL_IF_EMPTY, closes}, ONE("status", int32_t, WRITTEN)}},
    {"bpfhost_memory_refused", call_memory_refused, holds_memory_refused, false, 0, 2, 0, {HOST, ONE("refused", bool, WRITTEN)}},
    {"bpfhost_counts_of", call_counts_of, holds_counts, false, 0, 2, 0, {HOST, ONE("counts", bpfhost_counts, WRITTEN)}},
    {"bpfhost_status", call_status, holds_status, false, 0, 2, 0, {HOST, ONE("out", uint64_t, WRITTEN)}},
    {"bpfhost_describe", call_describe, holds_described, false, 0, 2, 0, {HOST, ONE("described", bpfhost_described, WRITTEN)}},
    {"bpfhost_program_cost", call_program_cost, holds_program_cost, false, 0, 2, 0, {HOST, ONE("cost", bpfhost_cost, WRITTEN)}},
    {"bpfhost_list", call_list, holds_list, false, 0, 3, 1,
     {HOST, {"entries", sizeof(bpfhost_listed), 2, alignof(bpfhost_listed), 0, WRITTEN | NULL_IF_EMPTY, NULL}, ONE("count", size_t, WRITTEN)}},
    {"bpfhost_verify_as", call_verify_as, holds_verify_as, false, 0, 4, 2,
     {HOST, {"slots", 8, 2, 1, 0, READ | NULL_IF_EMPTY, NULL}, BYTES("log", 20, 1, WRITTEN | NULL_IF_EMPTY),
      ONE("logged", bpfhost_logged, WRITTEN)}},
    {"bpfhost_verify", call_verify, holds_verify, false, 0, 4, 2,
     {HOST, {"slots", 8, 2, 1, 0, READ | NULL_IF_EMPTY, NULL}, BYTES("log", 20, 1, WRITTEN | NULL_IF_EMPTY), ONE("length", size_t, WRITTEN)}},
    {"bpfhost_prepare", call_prepare, holds_prepare, false, 0, 4, 2,
     {{"slots", 8, 2, 1, 0, READ | NULL_IF_EMPTY, NULL},
      {"descriptors", sizeof(bpfhost_descriptor), 2, alignof(bpfhost_descriptor), 1, READ | NULL_IF_EMPTY, NULL},
      ONE("prepared", bpfhost_prepared *, WRITTEN), RESULT}},
    {"bpfhost_install", call_install, holds_install, false, 0, 3, 0,
     {HOST, {"prepared", sizeof(bpfhost_memory), 1, alignof(bpfhost_memory), UNCOUNTED, WRITTEN, lent_nothing}, RESULT}},
    {"bpfhost_frame_begin", call_frame_begin, holds_begun, true, 11, 1, 1, {ROOM(12)}},
    {"bpfhost_frame_map_create", call_frame_map_create, holds_map_create, true, 24, 1, 1, {ROOM(26)}},
    {"bpfhost_frame_of_key", call_frame_of_key, holds_key, true, 8, 2, 2, {ROOM(14), KEY}},
    {"bpfhost_frame_map_lookup", call_frame_map_lookup, holds_key, true, 8, 2, 2, {ROOM(14), KEY}},
    {"bpfhost_frame_map_delete", call_frame_map_delete, holds_key, true, 8, 2, 2, {ROOM(14), KEY}},
    {"bpfhost_frame_map_next_key", call_frame_map_next_key, holds_key, true, 8, 2, 2, {ROOM(14), KEY}},
    {"bpfhost_frame_map_update", call_frame_map_update, holds_map_update, true, 16, 3, 3,
     {ROOM(30), KEY, BYTES("value", 8, 2, READ | NULL_IF_EMPTY)}},
    {"bpfhost_frame_prog_load", call_frame_prog_load, holds_prog_load, true, 8, 2, 2,
     {ROOM(26), {"slots", 8, 2, 1, 1, READ | NULL_IF_EMPTY, NULL}}},
    {"bpfhost_frame_test_run_head", call_frame_test_run_head, holds_test_run_head, true, 48, 2, 1, {ROOM(50), CONTEXT}},
    {"bpfhost_frame_prog_test_run", call_frame_prog_test_run, holds_prog_test_run, true, 48, 3, 2,
     {ROOM(55), CONTEXT, BYTES("packet", 5, 1, READ | NULL_IF_EMPTY)}},
    {"bpfhost_frame_close", call_frame_close, holds_begun, true, 8, 1, 1, {ROOM(10)}},
};

#endif
