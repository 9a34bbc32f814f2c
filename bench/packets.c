/* A program on many packets: by one call, by a frame for each, and in the plain interpreter. README.md explains what is measured.
 * usage: packets WAY STREAM SIZE BATCH BATCHES; the last frame of the stream is a test run of the program on one packet, which is filled
 * up to the size. With 0 batches it prints the nanoseconds per packet; otherwise it runs so many and prints the results of the last.
 *
 * With -DDPDK the one way is that of DPDK's interpreter (rte_bpf_exec_burst of librte_bpf). */
#define _GNU_SOURCE
#define PLAIN_WITHOUT_MAIN
#include "plain.c"

#include <bpfhost.h>
#include <stdbool.h>
#include <time.h>

#define MOST_BATCH 512
#define MOST_SIZE 1500
#define MOST_FRAMES 8
#define ROUNDS 20
#define ROUND_SECONDS 1e-3
/* The end of the sender's address, in which the packets differ. */
#define SENDER 29

static void must(bool holds, const char *what)
{
    if (!holds) {
        fprintf(stderr, "packets: %s\n", what);
        exit(1);
    }
}

static double now(void)
{
    struct timespec time;
    clock_gettime(CLOCK_PROCESS_CPUTIME_ID, &time);
    return (double)time.tv_sec + (double)time.tv_nsec * 1e-9;
}

static size_t size, batch;
static uint32_t fd, results[MOST_BATCH];
/* The words of the context that a frame gives, and the packets. */
static uint32_t words[10];
static uint8_t packets[MOST_BATCH * MOST_SIZE];

/* Takes the packet and the context of a test run. */
static void make_packets(bpfhost_bytes frame)
{
    size_t length = frame.length - BPFHOST_TEST_RUN_HEAD;
    must(length <= size, "the packet is longer than the size");
    fd = bpfhost_get32(frame.at + 4);
    memcpy(words, frame.at + 8, sizeof words);
    for (size_t i = 0; i < batch; i++) {
        memcpy(packets + i * size, frame.at + BPFHOST_TEST_RUN_HEAD, length);
        packets[i * size + SENDER] = (uint8_t)i;
    }
}

#ifdef DPDK
/* ---- DPDK's burst: a context for each packet, which its helper finds the packet by */

static struct context {
    uint32_t words[11];
    const uint8_t *packet;
} contexts[MOST_BATCH];
static void *context_of[MOST_BATCH];
static uint64_t answers[MOST_BATCH];

static uint64_t load_bytes_of_context(uint64_t a, uint64_t b, uint64_t c, uint64_t d, uint64_t e)
{
    const struct context *context = (const struct context *)a;
    packet = context->packet, packet_length = context->words[0];
    return load_bytes(a, b, c, d, e);
}

static void take(bpfhost_bytes frame)
{
    uint16_t command = bpfhost_get16(frame.at + 2);
    if (command == BPFHOST_MAP_CREATE)
        create(frame.at + 4);
    else if (command == BPFHOST_PROG_LOAD)
        load(frame.at + 4, frame.length - 4);
}

static void begin(void)
{
    static struct rte_bpf_xsym symbols[27];
    symbols[1].func.val = look_up;
    symbols[26].func.val = load_bytes_of_context;
    objects[fd].program->prm.xsym = symbols;
    for (size_t i = 0; i < batch; i++) {
        contexts[i].words[0] = (uint32_t)size;
        memcpy(contexts[i].words + 1, words, sizeof words);
        contexts[i].packet = packets + i * size;
        context_of[i] = &contexts[i];
    }
}

static void by_burst(void)
{
    rte_bpf_exec_burst((const struct rte_bpf *)objects[fd].program, context_of, answers, (uint32_t)batch);
}

static void end(void)
{
    for (size_t i = 0; i < batch; i++)
        results[i] = (uint32_t)answers[i];
}

static const struct way {
    const char *name;
    void (*run)(void);
} ways[] = {{"burst", by_burst}};
#else
/* ---- the host, and the plain interpreter */

static bpfhost *host;
static bpfhost_context context;
static size_t ends[MOST_BATCH];
/* The same packets with their places, and a context for each. */
static bpfhost_packet places[MOST_BATCH];
static bpfhost_context contexts[MOST_BATCH];
/* Each packet after the head of its frame. */
static uint8_t frames[MOST_BATCH * (BPFHOST_TEST_RUN_HEAD + MOST_SIZE)];

/* Both hosts get the maps and the program, and have the same descriptors. */
static void take(bpfhost_bytes frame)
{
    uint16_t command = bpfhost_get16(frame.at + 2);
    bpfhost_reply reply;
    int found = 0;
    if (host == NULL) {
        run(NULL, NULL);
        must(bpfhost_new(&host, 1, &(bpfhost_seed){{1, 2}}) == BPFHOST_DONE, "no host");
    }
    if (command == BPFHOST_MAP_CREATE)
        found = create(frame.at + 4);
    else if (command == BPFHOST_PROG_LOAD)
        found = load(frame.at + 4, frame.length - 4);
    if (found != 0)
        must(bpfhost_ask(host, frame.at, frame.length, &reply) == BPFHOST_DONE && reply.status == found, "a frame is refused");
}

static void begin(void)
{
    context = (bpfhost_context){words[0], words[1], words[2], words[3], words[4], words[5], words[6], words[7], words[8], words[9]};
    for (size_t i = 0; i < batch; i++) {
        uint8_t *frame = frames + i * (BPFHOST_TEST_RUN_HEAD + size);
        bpfhost_frame_test_run_head(frame, BPFHOST_TEST_RUN_HEAD, 0, fd, &context);
        memcpy(frame + BPFHOST_TEST_RUN_HEAD, packets + i * size, size);
        ends[i] = (i + 1) * size;
        places[i] = (bpfhost_packet){packets + i * size, size};
        contexts[i] = context;
    }
}

static void by_batch(void)
{
    int32_t status = -1;
    int code = bpfhost_run_packets(host, 0, fd, &context, packets, batch * size, ends, batch, results, &status);
    must(code == BPFHOST_DONE && status == 0, "a batch is refused");
}

/* With a context for each packet. */
static void by_contexts(void)
{
    int32_t status = -1;
    int code = bpfhost_run_packets_with(host, 0, fd, contexts, batch, packets, batch * size, ends, batch, results, &status);
    must(code == BPFHOST_DONE && status == 0, "a batch with contexts is refused");
}

/* By an address and a length for each packet. */
static void by_places(void)
{
    static uint8_t buffer[64 * MOST_SIZE];
    int32_t status = -1;
    int code = bpfhost_run_scattered(host, 0, fd, &context, 1, places, batch, buffer, sizeof buffer, results, &status);
    must(code == BPFHOST_DONE && status == 0, "scattered packets are refused");
}

static void by_frames(void)
{
    bpfhost_bytes reply;
    size_t length = BPFHOST_TEST_RUN_HEAD + size;
    for (size_t i = 0; i < batch; i++) {
        must(bpfhost_handle_lent(host, frames + i * length, length, &reply) == BPFHOST_DONE, "no reply");
        results[i] = bpfhost_get32(reply.at + 12);
    }
}

static void by_plain(void)
{
    uint32_t all[11];
    const struct program *program = objects[fd].program;
    memcpy(all + 1, words, sizeof words);
    for (size_t i = 0; i < batch; i++) {
        packet = packets + i * size, packet_length = (uint32_t)size;
        all[0] = packet_length;
        results[i] = run(program, all);
    }
}

static void end(void)
{
    bpfhost_free(host);
}

static const struct way {
    const char *name;
    void (*run)(void);
} ways[] = {{"batch", by_batch}, {"contexts", by_contexts}, {"places", by_places}, {"frames", by_frames}, {"plain", by_plain}};
#endif

/* ---- the stream and what is printed */

/* Gives each frame of the stream to the hosts, and makes packets of the last one. */
static void read_stream(const char *path)
{
    static uint8_t bytes[1 << 20];
    FILE *file = fopen(path, "rb");
    must(file != NULL, "the stream can't be read");
    size_t length = fread(bytes, 1, sizeof bytes, file), at = 0;
    bpfhost_bytes frame = {NULL, 0};
    fclose(file);
    for (; at < length; at += 4 + frame.length) {
        frame = (bpfhost_bytes){bytes + at + 4, bpfhost_get32(bytes + at)};
        take(frame);
    }
    must(frame.at != NULL && at == length, "the stream is no list of whole frames");
    make_packets(frame);
}

static void repeat(const struct way *way, long times)
{
    while (times--)
        way->run();
}

/* The time of a packet in ns: the least of many short rounds of processor time. */
static double least(const struct way *way)
{
    long times = 1;
    double best, taken, begun;
    do {
        times *= 2;
        begun = now();
        repeat(way, times);
        best = now() - begun;
    } while (best < ROUND_SECONDS);
    for (int i = 0; i < ROUNDS; i++) {
        begun = now();
        repeat(way, times);
        taken = now() - begun;
        best = taken < best ? taken : best;
    }
    return best / (double)times / (double)batch * 1e9;
}

int main(int count, char **arguments)
{
    const struct way *way = ways, *behind = ways + sizeof ways / sizeof *ways;
    long batches;
    must(count == 6, "usage: packets WAY STREAM SIZE BATCH BATCHES");
    while (way < behind && strcmp(way->name, arguments[1]) != 0)
        way++;
    size = strtoul(arguments[3], NULL, 10), batch = strtoul(arguments[4], NULL, 10), batches = strtol(arguments[5], NULL, 10);
    must(way < behind, "no such way");
    must(size > SENDER && size <= MOST_SIZE && batch > 0 && batch <= MOST_BATCH, "no such size or batch");
    read_stream(arguments[2]);
    begin();
    if (batches == 0) {
        printf("%.3f\n", least(way));
    } else {
        repeat(way, batches);
    }
    end();
    for (size_t i = 0; batches != 0 && i < batch; i++)
        printf("%08x\n", (unsigned)results[i]);
    return 0;
}
