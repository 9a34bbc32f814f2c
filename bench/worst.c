/* Carries out scripts of bench/worst on a host of the library: frames of tenant 0, of which one, or a part of a save, or a batch of packets, is
 * the step to be measured. README.md has the cases that scripts are made from (worst_costs/building.py).
 *
 * A script is two words of a seed and then records: a letter, three bytes of zero, u32 length, and as many bytes.
 *   f  a frame, whose status has to be at least 0            F  the step is this frame
 *   r  u32 times, and then frames, each after its u32 length: all of them so many times
 *   S  the step is a part of a save: u32 part                B  it is a batch: u32 descriptor, u32 packets, u32 the most instructions (0: any),
 *                                                               and the bytes of each packet
 *   I  the step is an install of a prepared program: u32 maps, for each its descriptor, type, key size, value size and entries, and the slots
 *
 * usage: worst serve           reads scripts, each after its u32 length, and writes the status of each step, or `refused` if a frame is
 *        worst rounds N FILE   carries out a script at most N times and writes, for each round, the nanoseconds of the step; those of a neighbour's
 *                              look-up that arrives together with it; the processor time of both; and how often they were interrupted
 *        worst kept N FILE     the same; what is freed stays with the process
 *        worst longest N FILE  writes which of the repeated frames takes longest, from 0, and its least time of N rounds */
#define _GNU_SOURCE
#include "worst.h"
#include <sys/resource.h>
#include <time.h>

#define NEIGHBOUR 1
#define NEIGHBOUR_KEYS 64
/* Rounds end after so long, but not before so many. */
#define MOST_NS 20e9
#define FEWEST_ROUNDS 25

/* The records of a script that are still to be carried out. */
struct script {
    const uint8_t *at, *end;
};

/* The step of a script, with the packets of a batch. */
struct step {
    uint8_t letter;
    const uint8_t *bytes;
    uint32_t length, fd, packets, bound;
    uint8_t *packet_bytes;
    size_t *ends;
    uint32_t *results;
    bpfhost_prepared *prepared;
};

/* Carries out a step; its machine instructions are counted. */
int32_t measured_step(bpfhost *host, const struct step *step);
__attribute__((noinline)) int32_t measured_step(bpfhost *host, const struct step *step)
{
    bpfhost_bytes reply;
    bpfhost_result result;
    int32_t status = 0;
    size_t ran = 0;
    if (step->letter == 'S')
        return bpfhost_save_part(host, 0, step->fd, &reply);
    if (step->letter == 'B')
        return bpfhost_run_bounded(host, 0, step->fd, NULL, step->packet_bytes, step->ends[step->packets - 1], step->ends, step->packets,
                                   step->bound, step->results, &status, &ran) == BPFHOST_DONE ? status : -1;
    if (step->letter == 'I')
        return bpfhost_install(host, 0, step->prepared, &result) == BPFHOST_DONE ? result.status : -1;
    if (bpfhost_handle_lent(host, step->bytes, step->length, &reply) != BPFHOST_DONE)
        return -1;
    return (int32_t)bpfhost_get32(reply.at + 8);
}

/* Makes the packets of a batch: the same bytes for each. */
static void make_packets(struct step *step, const uint8_t *packet, size_t length)
{
    step->packet_bytes = (uint8_t *)calloc(step->packets * length + 1, 1);
    step->ends = (size_t *)calloc(step->packets, sizeof *step->ends);
    step->results = (uint32_t *)calloc(step->packets, sizeof *step->results);
    must(step->packet_bytes && step->ends && step->results, "no memory for packets");
    for (size_t i = 0; i < step->packets; i++) {
        memcpy(step->packet_bytes + i * length, packet, length);
        step->ends[i] = (i + 1) * length;
    }
}

/* Prepares a program that is to be installed. Without one the step is refused. */
static void prepare_program(struct step *step, const uint8_t *bytes, uint32_t length)
{
    bpfhost_descriptor named[BPFHOST_MOST_DESCRIPTORS];
    bpfhost_result result;
    uint32_t count = bpfhost_get32(bytes), head = 4 + count * (uint32_t)sizeof *named;
    must(count <= BPFHOST_MOST_DESCRIPTORS && head <= length, "too many descriptors");
    for (uint32_t i = 0; i < count; i++) {
        const uint8_t *at = bytes + 4 + i * sizeof *named;
        named[i] = (bpfhost_descriptor){bpfhost_get32(at), bpfhost_get32(at + 4), bpfhost_get32(at + 8), bpfhost_get32(at + 12),
                                        bpfhost_get32(at + 16)};
    }
    must(bpfhost_prepare(bytes + head, (length - head) / 8, named, count, &step->prepared, &result) == BPFHOST_DONE, "no preparation");
}

static struct step step_of(uint8_t letter, const uint8_t *bytes, uint32_t length)
{
    struct step step = {.letter = letter, .bytes = bytes, .length = length};
    if (letter == 'S' || letter == 'B')
        step.fd = bpfhost_get32(bytes);
    if (letter == 'B') {
        step.packets = bpfhost_get32(bytes + 4);
        step.bound = bpfhost_get32(bytes + 8);
        make_packets(&step, bytes + 12, length - 12);
    }
    if (letter == 'I')
        prepare_program(&step, bytes, length);
    return step;
}

static void free_step(struct step *step)
{
    free(step->packet_bytes);
    free(step->ends);
    free(step->results);
    bpfhost_prepared_free(step->prepared);
}

static double clock_ns(clockid_t clock)
{
    struct timespec t;
    clock_gettime(clock, &t);
    return (double)t.tv_sec * 1e9 + (double)t.tv_nsec;
}

static double now_ns(void)
{
    return clock_ns(CLOCK_MONOTONIC);
}

/* How often this thread was interrupted by another one. */
static long interruptions(void)
{
    struct rusage used;
    must(getrusage(RUSAGE_THREAD, &used) == 0, "no usage");
    return used.ru_nivcsw;
}

/* The least time of each repeated frame so far. Without `at` none is kept. */
struct least {
    double *at;
    size_t room, next;
};

static struct least least = {NULL, 0, 0};

static bool timed(bpfhost *host, const uint8_t *frame, uint32_t length)
{
    double begin = now_ns();
    int32_t status = status_of(host, frame, length);
    double took = now_ns() - begin;
    must(least.next < least.room, "too many frames");
    least.at[least.next] = took < least.at[least.next] ? took : least.at[least.next];
    least.next++;
    return status >= 0;
}

/* Handles a list of frames, each after its length, so many times. */
static bool repeat(bpfhost *host, const uint8_t *bytes, uint32_t length)
{
    for (uint32_t times = bpfhost_get32(bytes); times > 0; times--)
        for (uint32_t at = 4; at < length; at += 4 + bpfhost_get32(bytes + at)) {
            const uint8_t *frame = bytes + at + 4;
            uint32_t size = bpfhost_get32(bytes + at);
            if (least.at != NULL ? !timed(host, frame, size) : status_of(host, frame, size) < 0)
                return false;
        }
    return true;
}

/* Carries out the records before the step, and leaves the step. false: a frame was refused. */
static bool prepare(bpfhost *host, struct script script, struct step *step)
{
    while (script.at < script.end) {
        uint8_t letter = script.at[0];
        uint32_t length = bpfhost_get32(script.at + 4);
        const uint8_t *bytes = script.at + 8;
        must(bytes + length <= script.end, "a record is cut off");
        if (letter == 'f' && status_of(host, bytes, length) < 0)
            return false;
        if (letter == 'r' && !repeat(host, bytes, length))
            return false;
        if (letter == 'F' || letter == 'S' || letter == 'B' || letter == 'I')
            *step = step_of(letter, bytes, length);
        script.at = bytes + length;
    }
    must(step->letter != 0, "a script has no step");
    return true;
}

/* A host with the seed of a script, which then begins with its first record. */
static bpfhost *host_of(struct script *script)
{
    bpfhost_seed seed;
    bpfhost *host = NULL;
    must(script->end - script->at > (ptrdiff_t)sizeof seed, "a script is empty");
    memcpy(&seed, script->at, sizeof seed);
    script->at += sizeof seed;
    must(bpfhost_new(&host, 2, &seed) == BPFHOST_DONE, "no host");
    return host;
}

/* Scripts one after another; under valgrind with --toggle-collect=measured_step --dump-after=measured_step each has a profile. */
static int serve(void)
{
    uint8_t head[4];
    while (fread(head, 1, sizeof head, stdin) == sizeof head) {
        uint32_t length = bpfhost_get32(head);
        uint8_t *bytes = (uint8_t *)malloc(length);
        struct script script = {bytes, bytes + length};
        struct step step = {0};
        must(bytes && fread(bytes, 1, length, stdin) == length, "a script is cut off");
        bpfhost *host = host_of(&script);
        if (prepare(host, script, &step))
            printf("%d\n", (int)measured_step(host, &step));
        else
            printf("refused\n");
        fflush(stdout);
        free_step(&step);
        bpfhost_free(host);
        free(bytes);
    }
    return 0;
}

/* Gives the neighbour a hash map of some keys, and writes its look-up; returns the length of the frame. */
static size_t make_neighbour(bpfhost *host, uint8_t *look_up, size_t room)
{
    uint8_t frame[64];
    uint64_t value = 1;
    size_t length = bpfhost_frame_map_create(frame, sizeof frame, NEIGHBOUR, BPFHOST_HASH, 4, sizeof value, NEIGHBOUR_KEYS, 0);
    must(status_of(host, frame, length) == 3, "the neighbour has no map");
    for (uint32_t key = 0; key < NEIGHBOUR_KEYS; key++) {
        length = bpfhost_frame_map_update(frame, sizeof frame, NEIGHBOUR, 3, BPFHOST_ANY, &key, sizeof key, &value, sizeof value);
        must(status_of(host, frame, length) == 0, "the neighbour has no key");
    }
    uint32_t key = NEIGHBOUR_KEYS / 2;
    return bpfhost_frame_map_lookup(look_up, room, NEIGHBOUR, 3, &key, sizeof key);
}

static int rounds(unsigned long count, const char *file)
{
    size_t length = 0;
    uint8_t *bytes = whole_file(file, &length), look_up[64];
    double start = now_ns();
    for (unsigned long round = 0; round < count && (round < FEWEST_ROUNDS || now_ns() - start < MOST_NS); round++) {
        struct script script = {bytes, bytes + length};
        struct step step = {0};
        bpfhost *host = host_of(&script);
        size_t look_up_length = make_neighbour(host, look_up, sizeof look_up);
        must(prepare(host, script, &step), "a frame is refused");
        long before = interruptions();
        double used = clock_ns(CLOCK_THREAD_CPUTIME_ID), begin = now_ns();
        (void)measured_step(host, &step);
        double between = now_ns();
        must(status_of(host, look_up, look_up_length) == 0, "the neighbour's look-up fails");
        double end = now_ns();
        used = clock_ns(CLOCK_THREAD_CPUTIME_ID) - used;
        printf("%.0f %.0f %.0f %ld\n", between - begin, end - begin, used, interruptions() - before);
        free_step(&step);
        bpfhost_free(host);
    }
    free(bytes);
    return 0;
}

/* Which of the repeated frames takes longest, by the least time of the rounds. */
static int longest(unsigned long count, const char *file)
{
    size_t length = 0, found = 0;
    uint8_t *bytes = whole_file(file, &length);
    least.room = 1 << 20;
    least.at = (double *)malloc(least.room * sizeof *least.at);
    must(least.at != NULL, "no memory for times");
    for (size_t i = 0; i < least.room; i++)
        least.at[i] = 1e18;
    for (unsigned long round = 0; round < count; round++) {
        struct script script = {bytes, bytes + length};
        struct step step = {0};
        bpfhost *host = host_of(&script);
        least.next = 0;
        must(prepare(host, script, &step), "a frame is refused");
        free_step(&step);
        bpfhost_free(host);
    }
    for (size_t i = 0; i < least.next; i++)
        found = least.at[i] > least.at[found] ? i : found;
    printf("%zu %.0f\n", found, least.at[found]);
    free(least.at);
    free(bytes);
    return 0;
}

int main(int argc, char **argv)
{
    if (argc == 2 && strcmp(argv[1], "serve") == 0)
        return serve();
    if (argc == 4 && strcmp(argv[1], "rounds") == 0)
        return rounds(strtoul(argv[2], NULL, 10), argv[3]);
    if (argc == 4 && strcmp(argv[1], "longest") == 0)
        return longest(strtoul(argv[2], NULL, 10), argv[3]);
    fprintf(stderr, "usage: worst serve | worst rounds N FILE | worst longest N FILE\n");
    return 2;
}
