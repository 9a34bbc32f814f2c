/* tcpdump's filters on packets: translated, by calls of the library for a batch of packets each, and by libpcap's bpf_filter in a loop.
 * README.md explains what is measured.
 * usage: filters WAY SLOTS CLASSIC PACKETS PASSES. SLOTS has a slot of 16 hex digits on each line, CLASSIC is the output of tcpdump -ddd,
 * PACKETS has before each packet its length, as a 32-bit number of this machine. With 0 passes over all packets it prints the nanoseconds
 * per packet; otherwise it makes so many passes and prints the results of the last. */
#define _GNU_SOURCE
#include <bpfhost.h>
#include <inttypes.h>
#include <stdlib.h>
#include <time.h>

#define BATCH 64
#define MOST_SLOTS 4096
#define ROUNDS 20
#define ROUND_SECONDS 1e-3

/* Of libpcap's headers: pcap/bpf.h. */
struct bpf_insn {
    uint16_t code;
    uint8_t jt, jf;
    uint32_t k;
};
extern unsigned bpf_filter(const struct bpf_insn *program, const uint8_t *packet, unsigned wire_length, unsigned length);

/* Of each packet its first byte, its length, and its end, counted from the begin of its batch: what each way is called with. */
static uint8_t *bytes;
static size_t *begins, *lengths, *ends, count;
static uint32_t *results;
static struct bpf_insn classic[MOST_SLOTS];
static bpfhost *host;
static uint32_t program;

static void must(bool holds, const char *what)
{
    if (!holds) {
        fprintf(stderr, "filters: %s\n", what);
        exit(1);
    }
}

static FILE *opened(const char *path)
{
    FILE *file = fopen(path, "rb");
    must(file != NULL, "a file can't be read");
    return file;
}

static void read_packets(const char *path)
{
    FILE *file = opened(path);
    uint32_t length;
    size_t size = 0;
    while (fread(&length, sizeof length, 1, file) == 1) {
        bytes = realloc(bytes, size + length + 1);
        begins = realloc(begins, (count + 1) * sizeof *begins);
        lengths = realloc(lengths, (count + 1) * sizeof *lengths);
        ends = realloc(ends, (count + 1) * sizeof *ends);
        must(bytes != NULL && begins != NULL && lengths != NULL && ends != NULL, "there is no memory");
        must(fread(bytes + size, 1, length, file) == length, "a packet is cut off");
        begins[count] = size;
        lengths[count] = length;
        size += length;
        ends[count] = size - begins[count - count % BATCH];
        count++;
    }
    fclose(file);
    results = calloc(count, sizeof *results);
    must(results != NULL, "there are no packets");
}

static void read_classic(const char *path)
{
    FILE *file = opened(path);
    unsigned many, code, jt, jf, k;
    must(fscanf(file, "%u", &many) == 1 && many <= MOST_SLOTS, "the classic program has no count");
    for (unsigned i = 0; i < many; i++) {
        must(fscanf(file, "%u %u %u %u", &code, &jt, &jf, &k) == 4, "the classic program is cut off");
        classic[i] = (struct bpf_insn){(uint16_t)code, (uint8_t)jt, (uint8_t)jf, k};
    }
    fclose(file);
}

/* Loads the slots into a host of one tenant. */
static void load(const char *path)
{
    static uint8_t slots[8 * MOST_SLOTS], frame[BPFHOST_LONGEST_FRAME];
    FILE *file = opened(path);
    size_t many = 0;
    unsigned byte;
    bpfhost_reply reply;
    while (many < sizeof slots && fscanf(file, "%2x", &byte) == 1)
        slots[many++] = (uint8_t)byte;
    fclose(file);
    must(bpfhost_new(&host, 1, &(bpfhost_seed){{1, 2}}) == BPFHOST_DONE, "no host");
    size_t length = bpfhost_frame_prog_load(frame, sizeof frame, 0, BPFHOST_SOCKET_FILTER, slots, many / 8);
    must(bpfhost_ask(host, frame, length, &reply) == BPFHOST_DONE && reply.status >= 0, "the program is refused");
    program = (uint32_t)reply.status;
}

static void by_batch(void)
{
    for (size_t first = 0; first < count; first += BATCH) {
        size_t many = count - first < BATCH ? count - first : BATCH;
        const uint8_t *batch = bytes + begins[first];
        int32_t status = -1;
        int code = bpfhost_run_packets(host, 0, program, NULL, batch, ends[first + many - 1], ends + first, many, results + first, &status);
        must(code == BPFHOST_DONE && status == 0, "a batch is refused");
    }
}

static void by_libpcap(void)
{
    for (size_t i = 0; i < count; i++) {
        unsigned length = (unsigned)lengths[i];
        results[i] = bpf_filter(classic, bytes + begins[i], length, length);
    }
}

static double now(void)
{
    struct timespec time;
    clock_gettime(CLOCK_PROCESS_CPUTIME_ID, &time);
    return (double)time.tv_sec + (double)time.tv_nsec * 1e-9;
}

static double taken(void (*run)(void), long times)
{
    double begun = now();
    while (times--)
        run();
    return now() - begun;
}

/* The time of a packet in ns: the least of many short rounds of processor time. */
static double least(void (*run)(void))
{
    long times = 1;
    double best;
    while ((best = taken(run, times)) < ROUND_SECONDS)
        times *= 2;
    for (int i = 0; i < ROUNDS; i++) {
        double found = taken(run, times);
        best = found < best ? found : best;
    }
    return best / (double)times / (double)count * 1e9;
}

int main(int many, char **words)
{
    must(many == 6, "usage: filters batch|libpcap SLOTS CLASSIC PACKETS PASSES");
    void (*run)(void) = strcmp(words[1], "batch") == 0 ? by_batch : by_libpcap;
    long passes = strtol(words[5], NULL, 10);
    load(words[2]);
    read_classic(words[3]);
    read_packets(words[4]);
    if (passes == 0)
        printf("%.3f\n", least(run));
    for (long pass = 0; pass < passes; pass++)
        run();
    for (size_t i = 0; passes != 0 && i < count; i++)
        printf("%" PRIu32 "\n", results[i]);
    bpfhost_free(host);
    return 0;
}
