/* A mistake in the use of a host, by its name. What the call returns is printed as text; with BPFHOST_DEBUG some end the program by a sentence
 * in its place. misuses has what is expected. usage: misuse NAME; without a name, all names are printed. */
#include "common.h"
#include <pthread.h>
#include <string.h>

static bpfhost *host;
static uint8_t room[BPFHOST_LONGEST_REPLY];
static size_t written;
static const uint8_t close_nothing[8] = {0, 0, 0, 1, 99};

static int handle(bpfhost *by, const void *frame, size_t length)
{
    return bpfhost_handle(by, frame, length, room, sizeof room, &written);
}

static int with_null_host(void)
{
    return handle(NULL, close_nothing, sizeof close_nothing);
}

static int with_null_frame(void)
{
    return handle(host, NULL, 8);
}

static int with_null_result(void)
{
    return bpfhost_close(host, 0, 3, NULL);
}

/* Of a bounded run. */
static int run_with_count_at(size_t *ran)
{
    static const size_t end = 0;
    uint32_t result;
    int32_t status;
    return bpfhost_run_bounded(host, 0, 5, NULL, NULL, 0, &end, 1, 1, &result, &status, ran);
}

static int with_null_count(void)
{
    return run_with_count_at(NULL);
}

static int with_count_over_host(void)
{
    return run_with_count_at((size_t *)(void *)host);
}

static int with_null_cost(void)
{
    return bpfhost_program_cost(host, 0, 4, NULL);
}

static int with_cost_over_host(void)
{
    return bpfhost_program_cost(host, 0, 4, (bpfhost_cost *)(void *)host);
}

static int with_frame_over_room(void)
{
    return handle(host, room + 100, 8);
}

static int with_result_over_host(void)
{
    return bpfhost_close(host, 0, 3, (bpfhost_result *)(void *)host);
}

static int with_long_length(void)
{
    return handle(host, close_nothing, (size_t)PTRDIFF_MAX + 1);
}

static int with_short_room(void)
{
    return bpfhost_handle(host, close_nothing, sizeof close_nothing, room, sizeof room - 1, &written);
}

static int with_lent_reply(void)
{
    bpfhost_reply reply = ask(host, close_nothing, sizeof close_nothing);
    return handle(host, reply.payload - 12, 8);
}

static int with_lent_part(void)
{
    bpfhost_bytes part;
    int32_t status;
    CHECK(bpfhost_save_part(host, 0, 0, &part) == BPFHOST_DONE);
    return bpfhost_restore(host, 0, part.at, part.length, &status);
}

static bpfhost_prepared *prepared_length(void)
{
    bpfhost_prepared *prepared = NULL;
    bpfhost_result result;
    CHECK(bpfhost_prepare(answers_length, 2, NULL, 0, &prepared, &result) == BPFHOST_DONE && result.status == 0);
    return prepared;
}

static int installed_twice(void)
{
    bpfhost_prepared *prepared = prepared_length();
    bpfhost_result result;
    int code;
    CHECK(bpfhost_install(host, 0, prepared, &result) == BPFHOST_DONE && result.status == 5);
    code = bpfhost_install(host, 0, prepared, &result);
    bpfhost_prepared_free(prepared);
    return code;
}

static int installed_null(void)
{
    bpfhost_result result;
    return bpfhost_install(host, 0, NULL, &result);
}

static int prepared_for_others(void)
{
    static const bpfhost_descriptor wider[1] = {{3, BPFHOST_ARRAY, 4, 16, 1}};
    bpfhost_prepared *prepared = NULL;
    bpfhost_result result;
    int code;
    CHECK(bpfhost_prepare(counts, 13, wider, 1, &prepared, &result) == BPFHOST_DONE && result.status == 0);
    code = bpfhost_install(host, 0, prepared, &result);
    bpfhost_prepared_free(prepared);
    return code;
}

#ifdef BPFHOST_DEBUG
static int installed_after_free(void)
{
    bpfhost_prepared *prepared = prepared_length();
    bpfhost_result result;
    bpfhost_prepared_free(prepared);
    return bpfhost_install(host, 0, prepared, &result);
}

static int prepared_freed_twice(void)
{
    bpfhost_prepared *prepared = prepared_length();
    bpfhost_prepared_free(prepared);
    bpfhost_prepared_free(prepared);
    return BPFHOST_DONE;
}

/* A host that is busy for long: runs of a program of two instructions on empty packets, again and again. */
static void *runs_for_ever(void *ends)
{
    static uint32_t results[1 << 16];
    int32_t status;
    for (;;)
        CHECK(bpfhost_run_packets(host, 0, 5, NULL, NULL, 0, (size_t *)ends, 1 << 16, results, &status) == BPFHOST_DONE);
    return NULL;
}

static int by_two_threads(void)
{
    static size_t ends[1 << 16];
    pthread_t thread;
    bpfhost_result out;
    CHECK(bpfhost_prog_load(host, 0, BPFHOST_SOCKET_FILTER, answers_length, 2, &out) == BPFHOST_DONE && out.status == 5);
    CHECK(pthread_create(&thread, NULL, runs_for_ever, ends) == 0);
    for (;;)
        CHECK(handle(host, close_nothing, sizeof close_nothing) == BPFHOST_DONE);
}

/* One thread frees while the other is in a call. */
static int freed_in_a_call(void)
{
    static size_t ends[1 << 16];
    pthread_t thread;
    bpfhost_result out;
    CHECK(bpfhost_prog_load(host, 0, BPFHOST_SOCKET_FILTER, answers_length, 2, &out) == BPFHOST_DONE && out.status == 5);
    CHECK(pthread_create(&thread, NULL, runs_for_ever, ends) == 0);
    for (volatile long i = 0; i < 10000000; i++)
        ;
    bpfhost_free(host);
    for (;;)
        ;
}

static int used_after_free(void)
{
    bpfhost_free(host);
    return handle(host, close_nothing, sizeof close_nothing);
}

static int run_after_free(void)
{
    static const size_t end = 0;
    uint32_t result;
    int32_t status;
    bpfhost_free(host);
    return bpfhost_run_packets(host, 0, 5, NULL, NULL, 0, &end, 1, &result, &status);
}

static int run_bounded_after_free(void)
{
    size_t ran;
    bpfhost_free(host);
    return run_with_count_at(&ran);
}

static int cost_after_free(void)
{
    bpfhost_cost cost;
    bpfhost_free(host);
    return bpfhost_program_cost(host, 0, 4, &cost);
}

static int saved_after_free(void)
{
    bpfhost_bytes part;
    bpfhost_free(host);
    return bpfhost_save_part(host, 0, 0, &part);
}

static int freed_twice(void)
{
    bpfhost_free(host);
    bpfhost_free(host);
    return BPFHOST_DONE;
}

static int never_made(void)
{
    static bpfhost_memory memory;
    memset(&memory, 0x5a, sizeof memory);
    return handle((bpfhost *)(void *)&memory, close_nothing, sizeof close_nothing);
}

#endif

static const struct {
    const char *name;
    int (*make)(void);
} mistakes[] = {
    {"with_null_host", with_null_host},
    {"with_null_frame", with_null_frame},
    {"with_null_result", with_null_result},
    {"with_null_count", with_null_count},
    {"with_count_over_host", with_count_over_host},
    {"with_null_cost", with_null_cost},
    {"with_cost_over_host", with_cost_over_host},
    {"with_frame_over_room", with_frame_over_room},
    {"with_result_over_host", with_result_over_host},
    {"with_long_length", with_long_length},
    {"with_short_room", with_short_room},
    {"with_lent_reply", with_lent_reply},
    {"with_lent_part", with_lent_part},
    {"installed_twice", installed_twice},
    {"installed_null", installed_null},
    {"prepared_for_others", prepared_for_others},
#ifdef BPFHOST_DEBUG
    {"installed_after_free", installed_after_free},
    {"prepared_freed_twice", prepared_freed_twice},
    {"by_two_threads", by_two_threads},
    {"freed_in_a_call", freed_in_a_call},
    {"used_after_free", used_after_free},
    {"run_after_free", run_after_free},
    {"run_bounded_after_free", run_bounded_after_free},
    {"cost_after_free", cost_after_free},
    {"saved_after_free", saved_after_free},
    {"freed_twice", freed_twice},
    {"never_made", never_made},
#endif
};

int main(int argc, char **argv)
{
    CHECK(bpfhost_new(&host, 2, &test_seed) == BPFHOST_DONE);
    open_counter(host, 0);
    for (size_t i = 0; i < sizeof mistakes / sizeof *mistakes; i++) {
        if (argc < 2)
            puts(mistakes[i].name);
        else if (strcmp(argv[1], mistakes[i].name) == 0)
            printf("%s\n", bpfhost_code_text(mistakes[i].make()));
    }
    CHECK(count_once(host, 0) == 1);
    bpfhost_free(host);
    return 0;
}
