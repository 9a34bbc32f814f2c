/* Packets of a capture, or of an interface, go through the filters of several tenants: each batch by one call for each tenant, and by more
 * in turn for a tenant whose filter may take long.
 * usage: packet_path [--each] [--rate] [--by-frames] [--bound N] CAPTURE FILTER..
 *        packet_path [--each] [--rate] [--by-frames] [--bound N] --interface NAME SECONDS FILTER..
 * FILTER is PROGRAM[,MAP]..: a file with a slot on each line, as `bpfhost asm` writes it, and for each map array:K:V:N or hash:K:V:N, the
 * bytes of a key and of a value, and the entries. The maps have the descriptors 3, 4, ... A filter returns how many bytes of a packet
 * to keep; 0 drops it. --each prints each result, --rate counts per second, --by-frames runs each packet by a frame of its own. --bound is
 * the most instructions of a call, 100,000 if it is not given, and 0 for no bound; one packet is run in any case.
 * The status is 1 if a file, the interface or a filter is rejected, or if the capture is cut off, which is printed after the counts. */
#include "packets.h"

#include <bpfhost.h>
#include <errno.h>
#include <inttypes.h>
#include <stdlib.h>

enum { SLOT_DIGITS = 16 };

struct tenant {
    const char *name;
    uint32_t program;
    size_t done; /* how many packets of the batch were run */
    uint64_t packets, bytes, packets_told;
};

struct options {
    bool each, rate, by_frames;
    uint64_t bound;
};

static bpfhost *host;
static struct batch batch;
static uint32_t answers[BATCH];

/* ---- tenants */

static bpfhost_reply ask(const void *frame, size_t length)
{
    bpfhost_reply reply;
    int code = bpfhost_ask(host, frame, length, &reply);
    if (code != BPFHOST_DONE)
        fail("no reply: %s", bpfhost_code_text(code));
    return reply;
}

/* Makes a map of a text as array:4:8:1. */
static void make_map(uint16_t tenant, const char *text)
{
    unsigned key, value, entries;
    uint8_t frame[24];
    int end = 0;
    uint32_t type = text[0] == 'a' ? BPFHOST_ARRAY : BPFHOST_HASH;
    if (sscanf(text, type == BPFHOST_ARRAY ? "array:%9u:%9u:%9u%n" : "hash:%9u:%9u:%9u%n", &key, &value, &entries, &end) != 3
        || text[end] != '\0')
        fail("%s: a map is array:K:V:N or hash:K:V:N", text);
    size_t length = bpfhost_frame_map_create(frame, sizeof frame, tenant, type, key, value, entries, 0);
    int32_t status = ask(frame, length).status;
    if (status < 0)
        fail("%s: the map is refused with status %d", text, (int)status);
}

/* A line of a program as the bytes of a slot. false: it is not 16 hex digits. */
static bool read_slot(const char *line, uint8_t slot[8])
{
    if (strspn(line, "0123456789abcdefABCDEF") != SLOT_DIGITS || strcspn(line, "\r\n") != SLOT_DIGITS)
        return false;
    for (size_t i = 0; i < 8; i++) {
        const char digits[3] = {line[2 * i], line[2 * i + 1], '\0'};
        slot[i] = (uint8_t)strtoul(digits, NULL, 16);
    }
    return true;
}

/* The slots of a file, and how many. */
static size_t read_program(const char *name, uint8_t *slots, size_t most)
{
    char line[SLOT_DIGITS + 4];
    size_t count = 0;
    FILE *file = fopen(name, "r");
    if (file == NULL)
        fail("%s: %s", name, strerror(errno));
    while (fgets(line, sizeof line, file) != NULL) {
        if (count == most)
            fail("%s: it has more than %zu slots", name, most);
        if (!read_slot(line, slots + 8 * count++))
            fail("%s: line %zu is not the 16 hex digits of a slot", name, count);
    }
    if (ferror(file))
        fail("%s: %s", name, strerror(errno));
    fclose(file);
    return count;
}

/* Makes the maps of a tenant and loads its program. */
static struct tenant load(uint16_t number, char *filter)
{
    static uint8_t slots[BPFHOST_LONGEST_FRAME - 8], frame[BPFHOST_LONGEST_FRAME];
    struct tenant it = {.name = strtok(filter, ",")};
    const char *map;
    if (it.name == NULL)
        fail("a filter has no name");
    while ((map = strtok(NULL, ",")) != NULL)
        make_map(number, map);
    size_t count = read_program(it.name, slots, sizeof slots / 8);
    size_t length = bpfhost_frame_prog_load(frame, sizeof frame, number, BPFHOST_SOCKET_FILTER, slots, count);
    bpfhost_reply reply = ask(frame, length);
    if (reply.status < 0 && reply.payload_length != 0)
        fail("%s: refused at slot %" PRIu32 ", reason %u", it.name, reply.slot, (unsigned)reply.reason);
    if (reply.status < 0)
        fail("%s: refused with status %d", it.name, (int)reply.status);
    it.program = (uint32_t)reply.status;
    return it;
}

/* ---- the packet path */

/* The ends of the packets of the batch from one on, counted from its first byte. */
static const size_t *ends_from(size_t first, size_t begin)
{
    static size_t ends[BATCH];
    if (first == 0)
        return batch.ends;
    for (size_t i = first; i < batch.count; i++)
        ends[i - first] = batch.ends[i] - begin;
    return ends;
}

/* The next packets of the batch by one call, as many as a bound allows: in place, if they lie one after another, and else by a buffer. How
 * many were run. */
static size_t run_batch(uint16_t number, const struct tenant *it, uint64_t bound)
{
    static uint8_t buffer[BATCH * 1514];
    const size_t done = it->done, left = batch.count - done, begin = done == 0 || batch.context_count != 0 ? 0 : batch.ends[done - 1];
    int32_t status = 0;
    size_t ran = 0;
    int code;
    if (batch.context_count == 0)
        code = bpfhost_run_bounded(host, number, it->program, NULL, batch.bytes + begin, sizeof batch.bytes - begin,
                                   ends_from(done, begin), left, bound, answers + done, &status, &ran);
    else
        code = bpfhost_run_bounded_scattered(host, number, it->program, batch.contexts + done, batch.context_count - done,
                                             batch.packets + done, left, buffer, sizeof buffer, bound, answers + done, &status, &ran);
    if (code != BPFHOST_DONE)
        fail("%s: not run: %s", it->name, bpfhost_code_text(code));
    if (status != 0)
        fail("%s: not run: status %d", it->name, (int)status);
    return ran;
}

/* All packets of the batch by a frame for each. */
static size_t run_frames(uint16_t number, const struct tenant *it)
{
    static uint8_t frame[BPFHOST_TEST_RUN_HEAD + BPFHOST_LONGEST_PACKET];
    for (size_t i = 0; i < batch.count; i++) {
        const bpfhost_context *context = batch.context_count == 0 ? NULL : &batch.contexts[i];
        const bpfhost_packet *packet = &batch.packets[i];
        size_t whole = bpfhost_frame_prog_test_run(frame, sizeof frame, number, it->program, context, packet->at, packet->length);
        bpfhost_reply reply = ask(frame, whole);
        if (reply.status != 0)
            fail("%s: not run: status %d", it->name, (int)reply.status);
        answers[i] = reply.result;
    }
    return batch.count;
}

/* Counts what a filter kept of so many packets more of the batch, whose first packet has this number. */
static void count_kept(struct tenant *it, uint64_t first, size_t ran, bool each)
{
    for (size_t i = it->done; i < it->done + ran; i++) {
        size_t length = batch.packets[i].length, answer = answers[i];
        it->packets += answer != 0;
        it->bytes += answer < length ? answer : length;
        if (each)
            printf("packet %" PRIu64 ", %s: %zu\n", first + i, it->name, answer);
    }
}

/* Runs the filters on the packets of the batch that each has not had yet: all filters in turn, until all have had all. */
static void filter_batch(struct tenant *tenants, size_t count, uint64_t first, struct options options)
{
    for (size_t i = 0; i < count; i++)
        tenants[i].done = 0;
    for (size_t left = count; left != 0;) {
        left = 0;
        for (size_t i = 0; i < count; i++) {
            struct tenant *it = &tenants[i];
            if (it->done == batch.count)
                continue;
            size_t ran = options.by_frames ? run_frames((uint16_t)i, it) : run_batch((uint16_t)i, it, options.bound);
            count_kept(it, first, ran, options.each);
            it->done += ran;
            left += it->done != batch.count;
        }
    }
}

/* Prints for each tenant how many packets a second it passed since this was printed last. */
static void print_rates(struct tenant *tenants, size_t count, double seconds)
{
    for (size_t i = 0; i < count; i++) {
        printf("%s: %.0f packets passed a second\n", tenants[i].name, (double)(tenants[i].packets - tenants[i].packets_told) / seconds);
        tenants[i].packets_told = tenants[i].packets;
    }
    fflush(stdout);
}

/* Runs all filters on all packets; how many packets there were. */
static uint64_t filter_all(struct source *source, struct tenant *tenants, size_t count, struct options options)
{
    uint64_t packets = 0;
    double told = now(), time;
    while (next_batch(source, &batch)) {
        filter_batch(tenants, count, packets + 1, options);
        packets += batch.count;
        time = now();
        if (options.rate && time - told >= 1) {
            print_rates(tenants, count, time - told);
            told = time;
        }
    }
    time = now();
    if (options.rate && time > told)
        print_rates(tenants, count, time - told);
    return packets;
}

/* ---- the command line */

/* Reads options from the words from `*at` on, and leaves `*at` at the first word that is none. */
static struct options read_options(char **words, int *at)
{
    struct options it = {false, false, false, 100000};
    char *end;
    for (; words[*at] != NULL; ++*at) {
        if (strcmp(words[*at], "--each") == 0)
            it.each = true;
        else if (strcmp(words[*at], "--rate") == 0)
            it.rate = true;
        else if (strcmp(words[*at], "--by-frames") == 0)
            it.by_frames = true;
        else if (strcmp(words[*at], "--bound") == 0 && words[*at + 1] != NULL) {
            it.bound = strtoull(words[++*at], &end, 10);
            if (*words[*at] < '0' || *words[*at] > '9' || *end != '\0')
                fail("%s: not a number of instructions", words[*at]);
        } else
            break;
    }
    return it;
}

/* Opens what the words from `*at` on name, and leaves `*at` at the first filter. */
static struct source read_source(char **words, int *at)
{
    const char *name = words[*at], *interface = words[*at + 1];
    if (strcmp(name, "--interface") != 0) {
        ++*at;
        return open_capture(name);
    }
    char *end;
    double seconds = strtod(words[*at + 2], &end);
    if (*end != '\0' || !(seconds > 0 && seconds < 1e9))
        fail("%s: not a number of seconds", words[*at + 2]);
    *at += 3;
    return open_interface(interface, seconds);
}

int main(int word_count, char **words)
{
    static struct tenant tenants[BPFHOST_MOST_TENANTS];
    int at = 1;
    struct options options = read_options(words, &at);
    bool is_live = at < word_count && strcmp(words[at], "--interface") == 0;
    if (word_count - at < (is_live ? 4 : 2))
        fail("usage: packet_path [--each] [--rate] [--by-frames] [--bound N] CAPTURE|--interface NAME SECONDS PROGRAM[,MAP].. ..");
    struct source source = read_source(words, &at);
    size_t count = (size_t)(word_count - at);
    bpfhost_seed seed;
    if (!bpfhost_random_seed(&seed))
        fail("no host: the system has no random bytes");
    int code = bpfhost_new(&host, count, &seed);
    if (code != BPFHOST_DONE)
        fail("no host: %s", bpfhost_code_text(code));
    for (size_t i = 0; i < count; i++)
        tenants[i] = load((uint16_t)i, words[at + (int)i]);
    uint64_t packets = filter_all(&source, tenants, count, options);
    printf("%s: %" PRIu64 " packets\n", source.name, packets);
    for (size_t i = 0; i < count; i++)
        printf("%s: passed %" PRIu64 " packets, %" PRIu64 " bytes\n", tenants[i].name, tenants[i].packets, tenants[i].bytes);
    if (fflush(stdout) != 0)
        fail("the counts can't be written: %s", strerror(errno));
    if (source.wrong != NULL)
        fail("%s: packet %" PRIu64 ": %s", source.name, packets + 1, source.wrong);
    bpfhost_free(host);
    return 0;
}
