/* A command by a call of the library, by two pipes to `bpfhost serve`, and by bpf(2). README.md says what is printed.
 * usage: embed BPFHOST STREAM..; a stream's last frame is the command that is timed, those before it come once.
 *    or: embed --list; prints the names of the commands that have two ways, by a frame of one's own and by one call, and of other calls.
 *    or: embed --repeat NAME frame|call TIMES; does such a command so many times, for a count of machine instructions. */
#define _GNU_SOURCE
#include <bpfhost.h>
#include <errno.h>
#include <linux/bpf.h>
#include <stdio.h>
#include <stdlib.h>
#include <sys/syscall.h>
#include <sys/wait.h>
#include <time.h>
#include <unistd.h>

#define MOST_FRAMES 16
#define AT_ONCE 32
#define ROUNDS 40
#define ROUND_SECONDS 5e-3

struct frames {
    const char *name;
    uint8_t *bytes;
    size_t count;
    bpfhost_bytes each[MOST_FRAMES]; /* without their length fields */
};

static void fail(const char *what)
{
    fprintf(stderr, "embed: %s\n", what);
    exit(1);
}

static void must(bool holds, const char *what)
{
    if (!holds)
        fail(what);
}

static double now(void)
{
    struct timespec t;
    clock_gettime(CLOCK_MONOTONIC, &t);
    return (double)t.tv_sec + (double)t.tv_nsec * 1e-9;
}

/* Does a command so many times. */
typedef void repeats(void *way, long times);

/* The time of a command in ns: the least of many short rounds, so that others on the machine count little. */
static double least(repeats *repeat, void *way)
{
    long times = 1;
    double begin, taken, best;
    do {
        times *= 2;
        begin = now();
        repeat(way, times);
        best = now() - begin;
    } while (best < ROUND_SECONDS);
    for (int i = 0; i < ROUNDS; i++) {
        begin = now();
        repeat(way, times);
        taken = now() - begin;
        best = taken < best ? taken : best;
    }
    return best / (double)times * 1e9;
}

static struct frames read_frames(const char *path)
{
    const char *slash = strrchr(path, '/');
    struct frames it = {.name = slash ? slash + 1 : path};
    FILE *file = fopen(path, "rb");
    size_t room = 1 << 20, length, at = 0;
    must(file && (it.bytes = malloc(room)), "a stream can't be read");
    length = fread(it.bytes, 1, room, file);
    fclose(file);
    while (at < length) {
        must(it.count < MOST_FRAMES, "a stream has too many frames");
        it.each[it.count].at = it.bytes + at + 4;
        it.each[it.count].length = bpfhost_get32(it.bytes + at);
        at += 4 + it.each[it.count++].length;
    }
    must(at == length && it.count, "a stream is no list of whole frames");
    return it;
}

static bpfhost_bytes last_of(const struct frames *frames)
{
    return frames->each[frames->count - 1];
}

/* ---- a call */

struct call {
    bpfhost *host;
    bpfhost_bytes frame, reply;
};

static void repeat_call(void *way, long times)
{
    struct call *call = way;
    while (times--)
        must(bpfhost_handle_lent(call->host, call->frame.at, call->frame.length, &call->reply) == BPFHOST_DONE, "no reply");
}

static struct call by_call(const struct frames *frames)
{
    struct call it = {.host = NULL};
    must(bpfhost_new(&it.host, 1, &(bpfhost_seed){{1, 2}}) == BPFHOST_DONE, "no host");
    for (size_t i = 0; i < frames->count; i++) {
        it.frame = frames->each[i];
        repeat_call(&it, 1);
    }
    return it;
}

/* ---- two pipes */

struct pipes {
    int to, from;
    pid_t process;
    uint8_t *frames; /* AT_ONCE of them, one after another */
    size_t frame_length, reply_length;
    long at_once;
    uint8_t replies[AT_ONCE * BPFHOST_LONGEST_REPLY];
};

static void repeat_pipes(void *way, long times)
{
    struct pipes *it = way;
    for (long done = 0; done < times; done += it->at_once) {
        size_t wanted = it->reply_length * (size_t)it->at_once, length = it->frame_length * (size_t)it->at_once;
        must(write(it->to, it->frames, length) == (ssize_t)length, "a pipe takes too few bytes at once");
        for (size_t has = 0; has < wanted;) {
            ssize_t more = read(it->from, it->replies + has, wanted - has);
            must(more > 0, "bpfhost serve has ended");
            has += (size_t)more;
        }
    }
}

static void start(struct pipes *it, const char *program)
{
    int to[2], from[2];
    must(pipe(to) == 0 && pipe(from) == 0 && (it->process = fork()) >= 0, "no pipes, or no process");
    if (it->process == 0) {
        dup2(to[0], 0);
        dup2(from[1], 1);
        close(to[1]);
        close(from[0]);
        execl(program, program, "serve", "--tenants", "1", (char *)NULL);
        _exit(1);
    }
    close(to[0]);
    close(from[1]);
    it->to = to[1];
    it->from = from[0];
}

/* Sends the frames before the last one, by the lengths of the replies that a host gives by calls. */
static void by_pipes(struct pipes *it, const char *program, const struct frames *frames)
{
    struct call call = {.host = NULL};
    must(bpfhost_new(&call.host, 1, &(bpfhost_seed){{1, 2}}) == BPFHOST_DONE, "no host");
    start(it, program);
    it->at_once = 1;
    for (size_t i = 0; i < frames->count; i++) {
        call.frame = frames->each[i];
        repeat_call(&call, 1);
        it->frames = (uint8_t *)(uintptr_t)(call.frame.at - 4);
        it->frame_length = 4 + call.frame.length;
        it->reply_length = call.reply.length;
        repeat_pipes(it, 1);
        must(memcmp(call.reply.at, it->replies, call.reply.length) == 0, "serve answers otherwise than the library");
    }
    bpfhost_free(call.host);
    must((it->frames = malloc(AT_ONCE * it->frame_length)) != NULL, "no memory");
    for (size_t i = 0; i < AT_ONCE; i++)
        memcpy(it->frames + i * it->frame_length, last_of(frames).at - 4, it->frame_length);
}

static void end(struct pipes *it)
{
    close(it->to);
    close(it->from);
    waitpid(it->process, NULL, 0);
    free(it->frames);
}

/* ---- bpf(2) */

struct kernel {
    enum bpf_cmd command;
    union bpf_attr attr;
    uint8_t value[BPFHOST_LONGEST_PAYLOAD];
    int fd;
    char log[256];
};

static int bpf(struct kernel *it)
{
    return (int)syscall(SYS_bpf, it->command, &it->attr, sizeof it->attr);
}

static void repeat_kernel(void *way, long times)
{
    while (times--)
        must(bpf(way) >= 0, "bpf(2) fails");
}

static uint64_t address(const void *at)
{
    return (uint64_t)(uintptr_t)at;
}

/* What the kernel is asked in place of a frame. A program is loaded for traffic control: a test run of a socket filter hides the
 * Ethernet header. None of the programs loads a map, so there is one descriptor at a time. */
static void for_kernel(struct kernel *it, bpfhost_bytes frame)
{
    const uint8_t *body = frame.at + 4;
    memset(&it->attr, 0, sizeof it->attr);
    switch (bpfhost_get16(frame.at + 2)) {
    case BPFHOST_MAP_CREATE:
        it->command = BPF_MAP_CREATE;
        it->attr.map_type = bpfhost_get32(body);
        it->attr.key_size = bpfhost_get32(body + 4);
        it->attr.value_size = bpfhost_get32(body + 8);
        it->attr.max_entries = bpfhost_get32(body + 12);
        return;
    case BPFHOST_MAP_UPDATE: /* of a key of four bytes */
        it->command = BPF_MAP_UPDATE_ELEM;
        it->attr.map_fd = (uint32_t)it->fd;
        it->attr.key = address(body + 12);
        it->attr.value = address(body + 16);
        return;
    case BPFHOST_MAP_LOOKUP:
        it->command = BPF_MAP_LOOKUP_ELEM;
        it->attr.map_fd = (uint32_t)it->fd;
        it->attr.key = address(body + 4);
        it->attr.value = address(it->value);
        return;
    case BPFHOST_PROG_LOAD:
        it->command = BPF_PROG_LOAD;
        it->attr.prog_type = BPF_PROG_TYPE_SCHED_CLS;
        it->attr.insns = address(body + 4);
        it->attr.insn_cnt = (uint32_t)(frame.length - 8) / 8;
        it->attr.license = address("GPL");
        return;
    case BPFHOST_PROG_TEST_RUN:
        it->command = BPF_PROG_TEST_RUN;
        it->attr.test.prog_fd = (uint32_t)it->fd;
        it->attr.test.data_in = address(frame.at + BPFHOST_TEST_RUN_HEAD);
        it->attr.test.data_size_in = (uint32_t)(frame.length - BPFHOST_TEST_RUN_HEAD);
        return;
    default:
        fail("a frame that the kernel is not asked");
    }
}

/* Whether the kernel may be asked; else why not is in errno. */
static bool by_kernel(struct kernel *it, const struct frames *frames)
{
    for (size_t i = 0; i < frames->count; i++) {
        int told;
        for_kernel(it, frames->each[i]);
        told = bpf(it);
        if (told < 0)
            return false;
        it->fd = told > 0 ? told : it->fd;
    }
    return true;
}

static void compare(const struct kernel *it, bpfhost_bytes reply)
{
    const void *told = it->command == BPF_PROG_TEST_RUN ? (const void *)&it->attr.test.retval : (const void *)it->value;
    must(memcmp(told, reply.at + 12, reply.length - 12) == 0, "the kernel answers otherwise than the library");
}

/* ---- a builder and bpfhost_ask, and one call */

struct command {
    const char *name;
    int32_t (*by_frame)(struct command *it), (*by_call)(struct command *it); /* each returns the status */
    int32_t wanted;
    bpfhost *host;
    int32_t (*way)(struct command *it);
    uint8_t frame[2048], value[8], packet[1500];
};

enum { MAP = 3, PROG = 4, FREE = 5 };
/* r0 = 1; exit */
static const uint64_t two_slots[] = {0x00000001000000b7, 0x0000000000000095};

static bpfhost_reply ask(struct command *it, size_t length)
{
    bpfhost_reply reply;
    must(bpfhost_ask(it->host, it->frame, length, &reply) == BPFHOST_DONE, "no reply");
    return reply;
}

static int32_t done(int code, const bpfhost_result *result)
{
    must(code == BPFHOST_DONE, "no result");
    return result->status;
}

static int32_t look_up_by_frame(struct command *it)
{
    bpfhost_reply reply = ask(it, bpfhost_frame_map_lookup(it->frame, sizeof it->frame, 0, MAP, "key1", 4));
    must(reply.payload_length <= sizeof it->value, "a value is too long");
    memcpy(it->value, reply.payload, reply.payload_length);
    return reply.status;
}

static int32_t look_up_by_call(struct command *it)
{
    bpfhost_result result;
    return done(bpfhost_map_lookup(it->host, 0, MAP, "key1", 4, it->value, sizeof it->value, &result), &result);
}

static int32_t update_by_frame(struct command *it)
{
    return ask(it, bpfhost_frame_map_update(it->frame, sizeof it->frame, 0, MAP, BPFHOST_ANY, "key1", 4, it->value, 8)).status;
}

static int32_t update_by_call(struct command *it)
{
    bpfhost_result result;
    return done(bpfhost_map_update(it->host, 0, MAP, "key1", 4, it->value, 8, BPFHOST_ANY, &result), &result);
}

static int32_t next_key_by_frame(struct command *it)
{
    bpfhost_reply reply = ask(it, bpfhost_frame_map_next_key(it->frame, sizeof it->frame, 0, MAP, NULL, 0));
    must(reply.payload_length <= sizeof it->value, "a key is too long");
    memcpy(it->value, reply.payload, reply.payload_length);
    return reply.status;
}

static int32_t next_key_by_call(struct command *it)
{
    bpfhost_result result;
    return done(bpfhost_map_get_next_key(it->host, 0, MAP, NULL, 0, it->value, 4, &result), &result);
}

static int32_t delete_by_frame(struct command *it)
{
    return ask(it, bpfhost_frame_map_delete(it->frame, sizeof it->frame, 0, MAP, "key2", 4)).status;
}

static int32_t delete_by_call(struct command *it)
{
    bpfhost_result result;
    return done(bpfhost_map_delete(it->host, 0, MAP, "key2", 4, &result), &result);
}

static int32_t run_by_frame(struct command *it)
{
    return ask(it, bpfhost_frame_prog_test_run(it->frame, sizeof it->frame, 0, PROG, NULL, it->packet, sizeof it->packet)).status;
}

static int32_t run_by_call(struct command *it)
{
    bpfhost_result result;
    return done(bpfhost_prog_test_run(it->host, 0, PROG, NULL, it->packet, sizeof it->packet, &result), &result);
}

static int32_t create_by_frame(struct command *it)
{
    ask(it, bpfhost_frame_map_create(it->frame, sizeof it->frame, 0, BPFHOST_HASH, 4, 8, 16, 0));
    return ask(it, bpfhost_frame_close(it->frame, sizeof it->frame, 0, FREE)).status;
}

static int32_t create_by_call(struct command *it)
{
    const bpfhost_map_attr attr = {BPFHOST_HASH, 4, 8, 16, 0};
    bpfhost_result result;
    done(bpfhost_map_create(it->host, 0, &attr, &result), &result);
    return done(bpfhost_close(it->host, 0, FREE, &result), &result);
}

static int32_t load_by_frame(struct command *it)
{
    ask(it, bpfhost_frame_prog_load(it->frame, sizeof it->frame, 0, BPFHOST_SOCKET_FILTER, two_slots, 2));
    return ask(it, bpfhost_frame_close(it->frame, sizeof it->frame, 0, FREE)).status;
}

static int32_t load_by_call(struct command *it)
{
    bpfhost_result result;
    done(bpfhost_prog_load(it->host, 0, BPFHOST_SOCKET_FILTER, two_slots, 2, &result), &result);
    return done(bpfhost_close(it->host, 0, FREE, &result), &result);
}

static void repeat_command(void *way, long times)
{
    struct command *it = way;
    while (times--)
        must(it->way(it) == it->wanted, "another status");
}

static void open_for_commands(struct command *it)
{
    const bpfhost_map_attr attr = {BPFHOST_HASH, 4, 8, 16, 0};
    bpfhost_result result;
    must(bpfhost_new(&it->host, 2, &(bpfhost_seed){{1, 2}}) == BPFHOST_DONE, "no host");
    must(done(bpfhost_map_create(it->host, 0, &attr, &result), &result) == MAP, "no map");
    must(done(bpfhost_prog_load(it->host, 0, BPFHOST_SOCKET_FILTER, two_slots, 2, &result), &result) == PROG, "no program");
    must(done(bpfhost_map_update(it->host, 0, MAP, "key1", 4, "value001", 8, BPFHOST_ANY, &result), &result) == 0, "no entry");
}

static void measure_command(struct command *it)
{
    double by_frame, by_one_call;
    open_for_commands(it);
    it->way = it->by_frame;
    by_frame = least(repeat_command, it);
    it->way = it->by_call;
    by_one_call = least(repeat_command, it);
    printf("%-22s%8.0f%10.0f%9.2f\n", it->name, by_frame, by_one_call, by_one_call / by_frame);
    bpfhost_free(it->host);
}

/* ---- calls that are no command */

static int32_t new_and_free(struct command *it)
{
    bpfhost *host = NULL;
    (void)it;
    must(bpfhost_new(&host, 1, &(bpfhost_seed){{1, 2}}) == BPFHOST_DONE, "no host");
    bpfhost_free(host);
    return 0;
}

static int32_t lend_look_up(struct command *it)
{
    bpfhost_bytes lent;
    size_t length = bpfhost_frame_map_lookup(it->frame, sizeof it->frame, 0, MAP, "key1", 4);
    must(bpfhost_handle_lent(it->host, it->frame, length, &lent) == BPFHOST_DONE, "no reply");
    return (int32_t)bpfhost_get32(lent.at + 8);
}

static int32_t copy_look_up(struct command *it)
{
    static uint8_t room[BPFHOST_LONGEST_REPLY];
    size_t length = bpfhost_frame_map_lookup(it->frame, sizeof it->frame, 0, MAP, "key1", 4), written;
    must(bpfhost_handle(it->host, it->frame, length, room, sizeof room, &written) == BPFHOST_DONE, "no reply");
    return (int32_t)bpfhost_get32(room + 8);
}

enum { BATCH = 64, SHORT = 20 };

/* Runs packets with so many contexts: none, one for all or one for each. */
static int32_t run_batch(struct command *it, size_t packets, size_t contexts)
{
    static const bpfhost_context given[BATCH];
    size_t ends[BATCH];
    uint32_t results[BATCH];
    int32_t status;
    int code;
    for (size_t i = 0; i < packets; i++)
        ends[i] = SHORT * (i + 1);
    if (contexts > 1)
        code = bpfhost_run_packets_with(it->host, 0, PROG, given, contexts, it->packet, sizeof it->packet, ends, packets, results, &status);
    else
        code = bpfhost_run_packets(it->host, 0, PROG, contexts == 0 ? NULL : given, it->packet, sizeof it->packet, ends, packets, results, &status);
    must(code == BPFHOST_DONE, "no run");
    return status;
}

static int32_t run_one(struct command *it)
{
    return run_batch(it, 1, 0);
}

static int32_t run_64(struct command *it)
{
    return run_batch(it, BATCH, 0);
}

static int32_t run_64_with_one(struct command *it)
{
    return run_batch(it, BATCH, 1);
}

static int32_t run_64_with_each(struct command *it)
{
    return run_batch(it, BATCH, BATCH);
}

static int32_t run_64_scattered(struct command *it)
{
    static uint8_t buffer[BATCH * SHORT];
    bpfhost_packet packets[BATCH];
    uint32_t results[BATCH];
    int32_t status;
    for (size_t i = 0; i < BATCH; i++)
        packets[i] = (bpfhost_packet){it->packet + SHORT * i, SHORT};
    must(bpfhost_run_scattered(it->host, 0, PROG, NULL, 0, packets, BATCH, buffer, sizeof buffer, results, &status) == BPFHOST_DONE, "no run");
    return status;
}

static int32_t ask_refused(struct command *it)
{
    bool refused;
    must(bpfhost_memory_refused(it->host, 0, &refused) == BPFHOST_DONE, "no flag");
    return refused;
}

static int32_t save_part(struct command *it)
{
    bpfhost_bytes part;
    must(bpfhost_save_part(it->host, 0, 2, &part) == BPFHOST_DONE, "no part");
    return 0;
}

struct saved {
    uint8_t bytes[8192];
    size_t length;
};

static bool keep(void *context, const uint8_t *frames, size_t length)
{
    struct saved *saved = context;
    must(length <= sizeof saved->bytes - saved->length, "a save is too long");
    memcpy(saved->bytes + saved->length, frames, length);
    saved->length += length;
    return true;
}

static int32_t save_all(struct command *it)
{
    struct saved saved = {.length = 0};
    must(bpfhost_save(it->host, 0, keep, &saved) == BPFHOST_DONE, "no save");
    return 0;
}

/* What is saved of tenant 0 becomes tenant 1, which is then closed. */
static int32_t save_and_restore_as(struct command *it)
{
    struct saved saved = {.length = 0};
    bpfhost_result result;
    int32_t status;
    must(bpfhost_save(it->host, 0, keep, &saved) == BPFHOST_DONE, "no save");
    must(bpfhost_restore_as(it->host, 1, saved.bytes, saved.length, &status) == BPFHOST_DONE, "not restored");
    return done(bpfhost_close_all(it->host, 1, &result), &result);
}

static int32_t close_nothing(struct command *it)
{
    bpfhost_result result;
    return done(bpfhost_close_all(it->host, 1, &result), &result);
}

static struct command commands[] = {
    {.name = "look-up", .by_frame = look_up_by_frame, .by_call = look_up_by_call},
    {.name = "next key", .by_frame = next_key_by_frame, .by_call = next_key_by_call},
    {.name = "update", .by_frame = update_by_frame, .by_call = update_by_call},
    {.name = "delete, no such key", .by_frame = delete_by_frame, .by_call = delete_by_call, .wanted = -2},
    {.name = "run, 1,500 bytes", .by_frame = run_by_frame, .by_call = run_by_call},
    {.name = "create and close", .by_frame = create_by_frame, .by_call = create_by_call},
    {.name = "load and close", .by_frame = load_by_frame, .by_call = load_by_call},
    {.name = "new and free", .by_call = new_and_free},
    {.name = "look-up, lent", .by_call = lend_look_up},
    {.name = "look-up, copied", .by_call = copy_look_up},
    {.name = "run_packets, 1", .by_call = run_one},
    {.name = "run_packets, 64", .by_call = run_64},
    {.name = "64, one context", .by_call = run_64_with_one},
    {.name = "64, a context each", .by_call = run_64_with_each},
    {.name = "run_scattered, 64", .by_call = run_64_scattered},
    {.name = "memory_refused", .by_call = ask_refused},
    {.name = "save_part of a key", .by_call = save_part},
    {.name = "save", .by_call = save_all},
    {.name = "and restore_as", .by_call = save_and_restore_as},
    {.name = "close_all of nothing", .by_call = close_nothing},
};

static void repeat_by_name(const char *name, const char *way, long times)
{
    for (size_t i = 0; i < sizeof commands / sizeof *commands; i++) {
        struct command *it = &commands[i];
        if (strcmp(it->name, name) != 0)
            continue;
        open_for_commands(it);
        it->way = strcmp(way, "call") == 0 ? it->by_call : it->by_frame;
        repeat_command(it, times);
        bpfhost_free(it->host);
    }
}

static void measure_commands(void)
{
    printf("ns a command by a frame of one's own, and by one call\n%-22s%8s%19s\n", "", "frame", "one call");
    for (size_t i = 0; i < sizeof commands / sizeof *commands; i++)
        if (commands[i].by_frame != NULL)
            measure_command(&commands[i]);
}

/* ---- what is printed */

static void print_time(double time, double call)
{
    printf("%10.0f%9.2f", time, time / call);
}

static void print_kernel(const struct frames *frames, struct call *call, double by_call)
{
    static struct kernel it;
    memset(&it, 0, sizeof it);
    if (!by_kernel(&it, frames)) {
        printf("   bpf(2): %s", strerror(errno));
        return;
    }
    compare(&it, call->reply);
    print_time(least(repeat_kernel, &it), by_call);
    if (it.command == BPF_PROG_TEST_RUN) {
        it.attr.test.repeat = 100000;
        repeat_kernel(&it, 1);
        print_time(it.attr.test.duration, by_call);
    }
    close(it.fd);
}

static void measure(const char *program, const char *path)
{
    static struct pipes pipes;
    struct frames frames = read_frames(path);
    struct call call = by_call(&frames);
    double time = least(repeat_call, &call);
    printf("%-22s%8.0f", frames.name, time);
    by_pipes(&pipes, program, &frames);
    print_time(least(repeat_pipes, &pipes), time);
    pipes.at_once = AT_ONCE;
    print_time(least(repeat_pipes, &pipes), time);
    end(&pipes);
    print_kernel(&frames, &call, time);
    puts("");
    bpfhost_free(call.host);
    free(frames.bytes);
}

int main(int argc, char **argv)
{
    if (argc == 2 && strcmp(argv[1], "--list") == 0) {
        for (size_t i = 0; i < sizeof commands / sizeof *commands; i++)
            printf("%s\t%s\n", commands[i].name, commands[i].by_frame != NULL ? "frame" : "");
        return 0;
    }
    if (argc == 5 && strcmp(argv[1], "--repeat") == 0) {
        repeat_by_name(argv[2], argv[3], atol(argv[4]));
        return 0;
    }
    must(argc > 2, "usage: embed BPFHOST STREAM..");
    setvbuf(stdout, NULL, _IOLBF, 0);
    printf("ns a command, and how many times the call's\n");
    printf("%-22s%8s%19s%19s%19s%19s\n", "", "call", "pipes, 1 frame", "pipes, 32 frames", "bpf(2)", "its run alone");
    for (int i = 2; i < argc; i++)
        measure(argv[1], argv[i]);
    measure_commands();
    return 0;
}
