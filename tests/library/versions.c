/* A program and a library of different versions: contexts and replies with fewer and more fields than this header has, the version of the
 * library, and a host that is refused if the binary interfaces differ. The linker puts __wrap_* in the place of two of the library's
 * functions, which return what `pretended` has. */
#include "common.h"
#include <string.h>

uint32_t __real_bpfhost_c_version(void);
uint32_t __real_bpfhost_c_abi(void);
uint32_t __wrap_bpfhost_c_version(void);
uint32_t __wrap_bpfhost_c_abi(void);

/* What the library is to return; 0 for what it does return. */
static struct {
    uint32_t version, abi;
} pretended;

uint32_t __wrap_bpfhost_c_version(void)
{
    return pretended.version == 0 ? __real_bpfhost_c_version() : pretended.version;
}

uint32_t __wrap_bpfhost_c_abi(void)
{
    return pretended.abi == 0 ? __real_bpfhost_c_abi() : pretended.abi;
}

/* The contexts of an older header, which ends after protocol, and of a newer one. */
struct older {
    uint32_t pkt_type, mark, queue_mapping, protocol;
};
struct newer {
    bpfhost_context known;
    uint32_t more[2];
};

/* r0 = mark + ifindex; exit */
static const uint8_t adds_two_words[4 * 8] = {0x61, 0x10, 8, 0, 0, 0, 0, 0, 0x61, 0x12, 40, 0, 0, 0, 0, 0,
                                              0x0f, 0x20, 0, 0, 0, 0, 0, 0, 0x95};

static const uint8_t bytes[3];
static const size_t ends[3] = {1, 2, 3};
static uint32_t results[3];
static int32_t status;

static uint32_t load(bpfhost *host)
{
    uint8_t frame[8 + sizeof adds_two_words];
    size_t length = bpfhost_frame_prog_load(frame, sizeof frame, 0, BPFHOST_SOCKET_FILTER, adds_two_words, 4);
    bpfhost_reply reply = ask(host, frame, length);
    CHECK(reply.status == 3);
    return 3;
}

/* The code of a run of three packets with contexts of any size. */
static int run(bpfhost *host, const void *contexts, size_t size, size_t count)
{
    memset(results, 0x5a, sizeof results);
    status = 0x5a5a;
    return bpfhost_run_packets_sized(host, 0, 3, contexts, size, count, bytes, sizeof bytes, ends, 3, results, &status);
}

static bool are_results(uint32_t first, uint32_t second, uint32_t third)
{
    return status == 0 && results[0] == first && results[1] == second && results[2] == third;
}

static bool is_unchanged(void)
{
    return status == 0x5a5a && results[0] == 0x5a5a5a5a && results[1] == 0x5a5a5a5a && results[2] == 0x5a5a5a5a;
}

static void try_older(bpfhost *host)
{
    const struct older one = {.mark = 7}, each[3] = {{.mark = 1}, {.mark = 2}, {.mark = 3}};
    const uint32_t word = 9;
    CHECK(run(host, &one, sizeof one, 1) == BPFHOST_DONE && are_results(7, 7, 7));
    CHECK(run(host, each, sizeof *each, 3) == BPFHOST_DONE && are_results(1, 2, 3));
    CHECK(run(host, &word, sizeof word, 1) == BPFHOST_DONE && are_results(0, 0, 0));
    CHECK(run(host, each, sizeof *each, 2) == BPFHOST_DONE && status == -22 && results[0] == 0x5a5a5a5a);
}

static void try_newer(bpfhost *host)
{
    struct newer each[3] = {{{.mark = 1, .ifindex = 10}, {0, 0}}, {{.mark = 2, .ifindex = 20}, {0, 0}}, {{.ifindex = 30}, {0, 0}}};
    CHECK(run(host, each, sizeof *each, 3) == BPFHOST_DONE && are_results(11, 22, 30));
    CHECK(run(host, each, sizeof *each, 1) == BPFHOST_DONE && are_results(11, 11, 11));
    each[2].more[1] = 1;
    CHECK(run(host, each, sizeof *each, 3) == BPFHOST_ERR_TOO_BIG && is_unchanged());
    CHECK(run(host, each, sizeof *each, 1) == BPFHOST_DONE && are_results(11, 11, 11));
}

/* A size of no whole words, and words of no whole contexts, which only the proved function can be given. */
static void try_sizes(bpfhost *host)
{
    const struct newer one = {{.mark = 1}, {0, 0}};
    const uint32_t *words = (const uint32_t *)(const void *)&one;
    size_t ran = 7;
    CHECK(run(host, &one, 0, 1) == BPFHOST_ERR_SIZE && is_unchanged());
    CHECK(run(host, &one, 41, 1) == BPFHOST_ERR_SIZE && is_unchanged());
    CHECK(run(host, &one, 4, SIZE_MAX / 4) == BPFHOST_ERR_LENGTH && is_unchanged());
    CHECK(run(host, NULL, 0, 0) == BPFHOST_DONE && are_results(0, 0, 0));
    CHECK(bpfhost_c_run_packets(host, 0, 3, 0, words, 12, 0, bytes, 3, ends, 3, results, 3, &status, &ran) == BPFHOST_ERR_SIZE);
    CHECK(bpfhost_c_run_packets(host, 0, 3, 0, words, 12, 10, bytes, 3, ends, 3, results, 3, &status, &ran) == BPFHOST_ERR_SIZE);
    CHECK(bpfhost_c_run_packets(host, 0, 3, 0, words, 12, 5, bytes, 3, ends, 3, results, 3, &status, &ran) == BPFHOST_ERR_SIZE && ran == 7);
    CHECK(bpfhost_c_run_packets(host, 0, 3, 0, words, 0, 10, bytes, 3, ends, 3, results, 3, &status, &ran) == BPFHOST_DONE && status == -22 && ran == 0);
}

/* Replies of an older header, without slot and reason, and of a newer one. */
static void try_replies(bpfhost *host)
{
    struct {
        bpfhost_reply known;
        uint64_t more;
    } longer;
    uint8_t shorter[offsetof(bpfhost_reply, slot) + 1], frame[8];
    size_t length = bpfhost_frame_close(frame, sizeof frame, 0, 60);
    memset(shorter, 0x5a, sizeof shorter);
    memset(&longer, 0x5a, sizeof longer);
    CHECK(bpfhost_ask_sized(host, frame, length, shorter, sizeof shorter - 1) == BPFHOST_DONE);
    int32_t first;
    memcpy(&first, shorter + offsetof(bpfhost_reply, status), sizeof first);
    CHECK(first == -9 && shorter[sizeof shorter - 1] == 0x5a);
    CHECK(bpfhost_ask_sized(host, frame, length, &longer, sizeof longer) == BPFHOST_DONE);
    CHECK(longer.known.status == -9 && longer.known.reason == 0 && longer.more == 0);
    CHECK(bpfhost_ask_sized(host, frame, length, &longer, 0) == BPFHOST_ERR_SIZE);
    CHECK(bpfhost_read_reply_sized(frame, sizeof frame, &longer, sizeof longer) == BPFHOST_ERR_NO_REPLY);
}

/* With a library of another version all contexts are read before the first packet is run: here it knows fewer words than a caller whose
 * contexts are newer, which this header cannot have. So a run of packets that lie anywhere is as with this version. */
static void try_scattered(bpfhost *host)
{
    const bpfhost_packet packets[3] = {{bytes, 1}, {bytes, 1}, {bytes, 1}};
    const bpfhost_context each[3] = {{.mark = 1}, {.mark = 2}, {.mark = 3}};
    status = 0x5a5a;
    CHECK(bpfhost_run_scattered(host, 0, 3, each, 3, packets, 3, NULL, 0, results, &status) == BPFHOST_DONE && are_results(1, 2, 3));
    CHECK(bpfhost_run_scattered(host, 0, 3, each, 2, packets, 3, NULL, 0, results, &status) == BPFHOST_DONE && status == -22);
    CHECK(bpfhost_run_scattered(host, 0, 9, each, 3, packets, 0, NULL, 0, results, &status) == BPFHOST_DONE && status == -9);
}

int main(void)
{
    bpfhost *host = NULL, *none = NULL;
    CHECK(bpfhost_library_version() == BPFHOST_VERSION_NUMBER && bpfhost_c_abi() == BPFHOST_ABI);
    pretended.abi = BPFHOST_ABI + 1;
    CHECK(bpfhost_new(&none, 1, &test_seed) == BPFHOST_ERR_VERSION && none == NULL);
    pretended.abi = 0;
    pretended.version = BPFHOST_VERSION_NUMBER + 1;
    CHECK(bpfhost_library_version() == BPFHOST_VERSION_NUMBER + 1);
    CHECK(bpfhost_new(&host, 1, &test_seed) == BPFHOST_DONE);
    CHECK(load(host) == 3);
    try_scattered(host);
    pretended.version = 0;
    try_scattered(host);
    try_older(host);
    try_newer(host);
    try_sizes(host);
    try_replies(host);
    bpfhost_free(host);
    puts("versions: contexts and replies of other sizes, and a library of another binary interface");
    return 0;
}
