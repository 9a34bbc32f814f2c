/* What the owner of a host sees of its tenants, and programs that are verified without it: counts, descriptors, costs, logs and prepared programs,
 * against what commands say of the same tenant. */
#include "common.h"
#include <pthread.h>
#include <string.h>

static bpfhost *host;

static uint64_t status_of(uint16_t tenant, enum bpfhost_which which)
{
    uint64_t found = 77;
    CHECK(bpfhost_status(host, tenant, which, &found) == BPFHOST_DONE);
    return found;
}

static void counts_are(uint16_t tenant, uint64_t maps, uint64_t entries, uint64_t value_bytes, uint64_t programs, uint64_t descriptors)
{
    bpfhost_counts counts;
    CHECK(bpfhost_counts_of(host, tenant, &counts) == BPFHOST_DONE);
    CHECK(counts.maps == maps && counts.entries == entries && counts.value_bytes == value_bytes && counts.programs == programs
          && counts.descriptors == descriptors && !counts.memory_refused);
    CHECK(status_of(tenant, BPFHOST_STATUS_MAPS) == maps && status_of(tenant, BPFHOST_STATUS_ENTRIES) == entries);
    CHECK(status_of(tenant, BPFHOST_STATUS_VALUE_BYTES) == value_bytes && status_of(tenant, BPFHOST_STATUS_PROGRAMS) == programs);
    CHECK(status_of(tenant, BPFHOST_STATUS_DESCRIPTORS) == descriptors && status_of(tenant, BPFHOST_STATUS_MEMORY_REFUSED) == 0);
}

static void check_counts(void)
{
    const bpfhost_map_attr attr = {BPFHOST_HASH, 4, 12, 16, 0};
    bpfhost_result out;
    uint64_t held = 0, more = 77;
    counts_are(0, 0, 0, 0, 0, 0);
    counts_are(2, 0, 0, 0, 0, 0); /* is not served */
    open_counter(host, 0);
    counts_are(0, 1, 1, 8, 1, 2);
    CHECK(bpfhost_map_create(host, 0, &attr, &out) == BPFHOST_DONE && out.status == 5);
    counts_are(0, 2, 1, 8 + 16 * 16, 1, 3);
    CHECK(bpfhost_map_update(host, 0, 5, "key1", 4, "value of 12 ", 12, 0, &out) == BPFHOST_DONE && out.status == 0);
    counts_are(0, 2, 2, 8 + 16 * 16, 1, 3);
    /* The counter's map is kept by its program. */
    CHECK(bpfhost_close(host, 0, 3, &out) == BPFHOST_DONE && out.status == 0);
    counts_are(0, 2, 2, 8 + 16 * 16, 1, 2);
    CHECK(bpfhost_status(host, 0, (enum bpfhost_which)7, &more) == BPFHOST_ERR_WHICH && more == 77);
    if (bpfhost_memory_held(&held)) {
        CHECK(bpfhost_status(host, 0, BPFHOST_STATUS_MEMORY_HELD, &more) == BPFHOST_DONE && (more > 0) == (held > 0)); /* a sanitizer tells 0 */
        printf("inspection: %llu bytes of malloc are held\n", (unsigned long long)more);
    } else
        CHECK(bpfhost_status(host, 0, BPFHOST_STATUS_MEMORY_HELD, &more) == BPFHOST_ERR_WHICH && more == 77);
}

/* After check_counts: the counter's program at 4, a hash map at 5. */
static void check_list(void)
{
    bpfhost_listed entries[3] = {
        {77, {7, 7, 7, 7, 7, 7, 7}, {7, 7}}, {77, {7, 7, 7, 7, 7, 7, 7}, {7, 7}}, {77, {7, 7, 7, 7, 7, 7, 7}, {7, 7}}};
    bpfhost_described one;
    size_t count = 77;
    CHECK(bpfhost_list(host, 0, NULL, 0, &count) == BPFHOST_DONE && count == 2);
    CHECK(bpfhost_list(host, 0, entries, 1, &count) == BPFHOST_DONE && count == 2 && entries[0].fd == 4 && entries[1].fd == 77);
    CHECK(bpfhost_list(host, 0, entries, 3, &count) == BPFHOST_DONE && count == 2 && entries[2].fd == 77);
    CHECK(entries[0].is.kind == BPFHOST_PROGRAM && entries[0].is.slots == 13 && entries[0].is.max_entries == 0);
    /* All but r0 = 0 with its exit, and the second slot of the wide load. */
    CHECK(entries[0].cost.instructions == 10 && entries[0].cost.calls == 1);
    CHECK(entries[1].cost.instructions == 0 && entries[1].cost.calls == 0);
    CHECK(entries[1].fd == 5 && entries[1].is.kind == BPFHOST_MAP && entries[1].is.type == BPFHOST_HASH && entries[1].is.key_size == 4
          && entries[1].is.value_size == 12 && entries[1].is.max_entries == 16 && entries[1].is.entries == 1 && entries[1].is.slots == 0);
    CHECK(bpfhost_list(host, 2, entries, 3, &count) == BPFHOST_DONE && count == 0);
    CHECK(bpfhost_list(host, 0, NULL, 1, &count) == BPFHOST_ERR_NULL && bpfhost_list(host, 0, entries, SIZE_MAX / 8, &count) == BPFHOST_ERR_LENGTH);
    CHECK(bpfhost_describe(host, 0, 3, &one) == BPFHOST_DONE && one.kind == BPFHOST_NOTHING);
    CHECK(bpfhost_describe(host, 0, 5, &one) == BPFHOST_DONE && one.entries == 1);
}

/* On an empty or short packet a call and 8 instructions, on a longer one 10 instructions. */
static const uint8_t branches[16 * 8] = {
    0x61, 0x10, 0x00, 0x00, 0x00, 0x00, 0x00, 0x00, /* r0 = the packet's length */
    0x25, 0x00, 0x06, 0x00, 0x0a, 0x00, 0x00, 0x00, /* if r0 > 10 goto long */
    0xb7, 0x02, 0x00, 0x00, 0x00, 0x00, 0x00, 0x00, /* r2 = 0 */
    0xbf, 0xa3, 0x00, 0x00, 0x00, 0x00, 0x00, 0x00, /* r3 = r10 */
    0x07, 0x03, 0x00, 0x00, 0xfc, 0xff, 0xff, 0xff, /* r3 += -4 */
    0xb7, 0x04, 0x00, 0x00, 0x01, 0x00, 0x00, 0x00, /* r4 = 1 */
    0x85, 0x00, 0x00, 0x00, 0x1a, 0x00, 0x00, 0x00, /* call 26 */
    0x95, 0x00, 0x00, 0x00, 0x00, 0x00, 0x00, 0x00, /* exit */
    0xb7, 0x00, 0x00, 0x00, 0x01, 0x00, 0x00, 0x00, /* long: r0 = 1 */
    0x07, 0x00, 0x00, 0x00, 0x01, 0x00, 0x00, 0x00, /* r0 += 1, six times */
    0x07, 0x00, 0x00, 0x00, 0x01, 0x00, 0x00, 0x00,
    0x07, 0x00, 0x00, 0x00, 0x01, 0x00, 0x00, 0x00,
    0x07, 0x00, 0x00, 0x00, 0x01, 0x00, 0x00, 0x00,
    0x07, 0x00, 0x00, 0x00, 0x01, 0x00, 0x00, 0x00,
    0x07, 0x00, 0x00, 0x00, 0x01, 0x00, 0x00, 0x00,
    0x95, 0x00, 0x00, 0x00, 0x00, 0x00, 0x00, 0x00, /* exit */
};

static void cost_is(uint16_t tenant, uint32_t fd, uint32_t instructions, uint32_t calls)
{
    bpfhost_cost cost = {77, 77};
    CHECK(bpfhost_program_cost(host, tenant, fd, &cost) == BPFHOST_DONE && cost.instructions == instructions && cost.calls == calls);
}

/* Loads a program, which gets descriptor 3. */
static void load(const uint8_t *slots, size_t count)
{
    bpfhost_result out;
    CHECK(bpfhost_prog_load(host, 0, BPFHOST_SOCKET_FILTER, slots, count, &out) == BPFHOST_DONE && out.status == 3);
}

/* After check_counts. The most instructions and the most calls may be on two paths; what names no program costs nothing. */
static void check_costs(void)
{
    static uint8_t longest[4096 * 8];
    char log[4096];
    size_t length;
    bpfhost_cost cost = {77, 77};
    bpfhost_result out;
    cost_is(0, 4, 10, 1);
    load(branches, 16);
    cost_is(0, 3, 10, 1);
    CHECK(bpfhost_verify(host, 0, branches, 16, log, sizeof log, &length) == BPFHOST_DONE);
    CHECK(strstr(log, "\ncost: instructions 10, calls 1\naccepted\n") != NULL);
    CHECK(bpfhost_close(host, 0, 3, &out) == BPFHOST_DONE && out.status == 0);
    cost_is(0, 3, 0, 0);
    for (size_t i = 0; i < 4096; i++)
        longest[8 * i] = i < 4095 ? 0xb7 : 0x95; /* r0 = 0, and exit */
    load(longest, 4096);
    cost_is(0, 3, 4096, 0);
    CHECK(bpfhost_close(host, 0, 3, &out) == BPFHOST_DONE && out.status == 0);
    load(longest + 8 * 4094, 2);
    cost_is(0, 3, 2, 0);
    CHECK(bpfhost_close(host, 0, 3, &out) == BPFHOST_DONE && out.status == 0);
    cost_is(0, 5, 0, 0); /* is a map */
    cost_is(0, 0, 0, 0); /* no descriptors: too low, and too high */
    cost_is(0, UINT32_MAX, 0, 0);
    cost_is(1, 4, 0, 0);
    cost_is(2, 4, 0, 0); /* is not served */
    CHECK(bpfhost_program_cost(NULL, 0, 4, &cost) == BPFHOST_ERR_NULL && bpfhost_program_cost(host, 0, 4, NULL) == BPFHOST_ERR_NULL);
    CHECK(bpfhost_program_cost(host, 0, 4, (bpfhost_cost *)(void *)host) == BPFHOST_ERR_OVERLAP);
    CHECK(cost.instructions == 77 && cost.calls == 77);
}

static void check_logs(void)
{
    static const uint8_t jumps_back[16] = {0xb7, 0, 0, 0, 0, 0, 0, 0, 0x05, 0, 0xfe, 0xff};
    char log[4096], cut[8] = "-------";
    bpfhost_logged logged = {77, false};
    size_t length = 77;
    CHECK(bpfhost_verify(host, 0, answers_length, 2, log, sizeof log, &length) == BPFHOST_DONE);
    CHECK(length == strlen(log) && strstr(log, "accepted") != NULL);
    CHECK(bpfhost_verify(host, 0, answers_length, 2, cut, sizeof cut - 1, &length) == BPFHOST_DONE);
    CHECK(length == strlen(log) && memcmp(cut, log, 6) == 0 && cut[6] == '\0' && cut[7] == '\0');
    CHECK(bpfhost_verify(host, 0, answers_length, 2, NULL, 0, &length) == BPFHOST_DONE && length == strlen(log));
    CHECK(bpfhost_verify_as(host, 0, answers_length, 2, BPFHOST_LOG_GRAPH, log, sizeof log, &logged) == BPFHOST_DONE);
    CHECK(logged.is_accepted && logged.length == strlen(log) && strncmp(log, "digraph", 7) == 0);
    CHECK(bpfhost_verify_as(host, 0, jumps_back, 2, BPFHOST_LOG_WHOLE, log, sizeof log, &logged) == BPFHOST_DONE && !logged.is_accepted);
    CHECK(bpfhost_verify_as(host, 0, answers_length, 2, (enum bpfhost_style)3, log, sizeof log, &logged) == BPFHOST_ERR_STYLE);
    /* No slots are no program; the counter's map is not at 3 any more. */
    CHECK(bpfhost_verify_as(host, 0, NULL, 0, BPFHOST_LOG_NEW, log, sizeof log, &logged) == BPFHOST_DONE && !logged.is_accepted && log[0] != '\0');
    CHECK(bpfhost_verify_as(host, 0, counts, 13, BPFHOST_LOG_NEW, log, sizeof log, &logged) == BPFHOST_DONE && !logged.is_accepted);
    CHECK(bpfhost_verify(host, 0, NULL, 1, log, sizeof log, &length) == BPFHOST_ERR_NULL);
    CHECK(bpfhost_verify(host, 0, answers_length, SIZE_MAX / 8, log, sizeof log, &length) == BPFHOST_ERR_LENGTH);
    CHECK(bpfhost_verify(host, 0, log, 2, log, sizeof log, &length) == BPFHOST_ERR_OVERLAP);
}

static const bpfhost_descriptor counter_map[1] = {{3, BPFHOST_ARRAY, 4, 8, 1}};

/* Prepares the counter's program. */
static void *prepares(void *at)
{
    bpfhost_result result;
    CHECK(bpfhost_prepare(counts, 13, counter_map, 1, (bpfhost_prepared **)at, &result) == BPFHOST_DONE && result.status == 0);
    return NULL;
}

/* On another thread, while the host runs packets; it is installed twice, and in a tenant without the map. */
static void check_prepared(void)
{
    const bpfhost_map_attr array = {BPFHOST_ARRAY, 4, 8, 1, 0}, other = {BPFHOST_ARRAY, 4, 16, 1, 0};
    bpfhost_prepared *prepared = NULL;
    bpfhost_result result;
    pthread_t thread;
    CHECK(pthread_create(&thread, NULL, prepares, &prepared) == 0);
    for (int i = 0; i < 1000; i++)
        count_once(host, 0);
    CHECK(pthread_join(thread, NULL) == 0 && prepared != NULL);
    /* Tenant 1 has no map at 3, then one of another shape. */
    CHECK(bpfhost_install(host, 1, prepared, &result) == BPFHOST_ERR_STALE);
    CHECK(bpfhost_map_create(host, 1, &other, &result) == BPFHOST_DONE && result.status == 3);
    CHECK(bpfhost_install(host, 1, prepared, &result) == BPFHOST_ERR_STALE);
    CHECK(bpfhost_close(host, 1, 3, &result) == BPFHOST_DONE && bpfhost_map_create(host, 1, &array, &result) == BPFHOST_DONE && result.status == 3);
    CHECK(bpfhost_install(host, 1, prepared, &result) == BPFHOST_DONE && result.status == 4);
    CHECK(count_once(host, 1) == 1 && count_once(host, 1) == 2);
    cost_is(1, 4, 10, 1);
    result.status = 77;
    CHECK(bpfhost_install(host, 1, prepared, &result) == BPFHOST_ERR_NO_PROGRAM && result.status == 77);
    bpfhost_prepared_free(prepared);
    bpfhost_prepared_free(NULL);
    /* One that is not installed, and one of a tenant that is not served, which is used up. */
    prepares(&prepared);
    CHECK(bpfhost_install(NULL, 1, prepared, &result) == BPFHOST_ERR_NULL && bpfhost_install(host, 1, NULL, &result) == BPFHOST_ERR_NULL);
    CHECK(bpfhost_install(host, 1, prepared, (bpfhost_result *)(void *)prepared) == BPFHOST_ERR_OVERLAP);
    bpfhost_prepared_free(prepared);
}

static void check_refusals(void)
{
    static const bpfhost_descriptor no_map[1] = {{3, BPFHOST_ARRAY, 5, 8, 1}}, program[1] = {{3, 0, 0, 0, 0}};
    static bpfhost_descriptor many[BPFHOST_MOST_DESCRIPTORS + 1];
    bpfhost_prepared *prepared = NULL, *made = NULL;
    bpfhost_result result = {77, 77, 77, 77, 77}, loaded;
    CHECK(bpfhost_prepare(counts, 13, no_map, 1, &prepared, &result) == BPFHOST_ERR_DESCRIPTORS && prepared == NULL && result.status == 77);
    CHECK(bpfhost_prepare(counts, 13, many, BPFHOST_MOST_DESCRIPTORS + 1, &prepared, &result) == BPFHOST_ERR_DESCRIPTORS);
    CHECK(bpfhost_prepare(NULL, 13, counter_map, 1, &prepared, &result) == BPFHOST_ERR_NULL);
    CHECK(bpfhost_prepare(counts, 13, NULL, 1, &prepared, &result) == BPFHOST_ERR_NULL);
    CHECK(bpfhost_prepare(counts, 13, counter_map, 1, NULL, &result) == BPFHOST_ERR_NULL);
    CHECK(bpfhost_prepare(counts, SIZE_MAX / 8, counter_map, 1, &prepared, &result) == BPFHOST_ERR_LENGTH && prepared == NULL);
    /* The refusals of PROG_LOAD: tenant 1 has an array of 16 bytes at 3, then a program, then nothing. */
    CHECK(bpfhost_close_all(host, 1, &loaded) == BPFHOST_DONE);
    CHECK(bpfhost_prog_load(host, 1, BPFHOST_SOCKET_FILTER, counts, 13, &loaded) == BPFHOST_DONE && loaded.status < 0);
    CHECK(bpfhost_prepare(counts, 13, NULL, 0, &made, &result) == BPFHOST_DONE && made == NULL);
    CHECK(result.status == loaded.status && result.slot == loaded.slot && result.reason == loaded.reason && result.reason == 7);
    CHECK(bpfhost_prog_load(host, 1, BPFHOST_SOCKET_FILTER, answers_length, 2, &loaded) == BPFHOST_DONE && loaded.status == 3);
    CHECK(bpfhost_prog_load(host, 1, BPFHOST_SOCKET_FILTER, counts, 13, &loaded) == BPFHOST_DONE && loaded.status < 0);
    CHECK(bpfhost_prepare(counts, 13, program, 1, &made, &result) == BPFHOST_DONE && made == NULL);
    CHECK(result.status == loaded.status && result.slot == loaded.slot && result.reason == loaded.reason && result.reason == 8);
}

int main(void)
{
    CHECK(bpfhost_new(&host, 2, &test_seed) == BPFHOST_DONE);
    check_counts();
    check_list();
    check_costs();
    check_logs();
    check_prepared();
    check_refusals();
    bpfhost_free(host);
    puts("inspection: counts, descriptors, costs, logs and prepared programs");
    return 0;
}
