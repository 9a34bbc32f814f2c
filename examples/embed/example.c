/* Two tenants of one host in this process: a filter that counts UDP packets in place, without a copy, and a hostile neighbour.
 * README.md explains how to build it. */
#include <bpfhost.h>
#include <stdio.h>
#include <stdlib.h>

enum { HONEST, HOSTILE, TENANTS };

/* Of each tenant the first descriptor is 3. */
#define COUNTS 3
#define FILTER 4

/* filter.txt, assembled by `bpfhost asm`: returns the length of a UDP packet over IPv4 over Ethernet, and counts it in the map of
 * descriptor 3; returns 0 for all others. */
static const uint8_t filter[] = {
    0xbf, 0x16, 0x00, 0x00, 0x00, 0x00, 0x00, 0x00, /* r6 = r1 */
    0xb7, 0x02, 0x00, 0x00, 0x17, 0x00, 0x00, 0x00, /* r2 = 23 */
    0xbf, 0xa3, 0x00, 0x00, 0x00, 0x00, 0x00, 0x00, /* r3 = r10 */
    0x07, 0x03, 0x00, 0x00, 0xf8, 0xff, 0xff, 0xff, /* r3 += -8 */
    0xb7, 0x04, 0x00, 0x00, 0x01, 0x00, 0x00, 0x00, /* r4 = 1 */
    0x85, 0x00, 0x00, 0x00, 0x1a, 0x00, 0x00, 0x00, /* call 26 */
    0x55, 0x00, 0x0d, 0x00, 0x00, 0x00, 0x00, 0x00, /* if r0 != 0 goto drop */
    0x71, 0xa1, 0xf8, 0xff, 0x00, 0x00, 0x00, 0x00, /* r1 = *(u8 *)(r10 - 8) */
    0x55, 0x01, 0x0b, 0x00, 0x11, 0x00, 0x00, 0x00, /* if r1 != 17 goto drop */
    0x62, 0x0a, 0xfc, 0xff, 0x00, 0x00, 0x00, 0x00, /* *(u32 *)(r10 - 4) = 0 */
    0x18, 0x11, 0x00, 0x00, 0x03, 0x00, 0x00, 0x00, /* r1 = map_fd 3 ll */
    0x00, 0x00, 0x00, 0x00, 0x00, 0x00, 0x00, 0x00,
    0xbf, 0xa2, 0x00, 0x00, 0x00, 0x00, 0x00, 0x00, /* r2 = r10 */
    0x07, 0x02, 0x00, 0x00, 0xfc, 0xff, 0xff, 0xff, /* r2 += -4 */
    0x85, 0x00, 0x00, 0x00, 0x01, 0x00, 0x00, 0x00, /* call 1 */
    0x15, 0x00, 0x04, 0x00, 0x00, 0x00, 0x00, 0x00, /* if r0 == 0 goto drop */
    0xb7, 0x01, 0x00, 0x00, 0x01, 0x00, 0x00, 0x00, /* r1 = 1 */
    0xdb, 0x10, 0x00, 0x00, 0x00, 0x00, 0x00, 0x00, /* lock *(u64 *)(r0 + 0) += r1 */
    0x61, 0x60, 0x00, 0x00, 0x00, 0x00, 0x00, 0x00, /* r0 = *(u32 *)(r6 + 0) */
    0x95, 0x00, 0x00, 0x00, 0x00, 0x00, 0x00, 0x00, /* exit */
    0xb7, 0x00, 0x00, 0x00, 0x00, 0x00, 0x00, 0x00, /* drop: r0 = 0 */
    0x95, 0x00, 0x00, 0x00, 0x00, 0x00, 0x00, 0x00, /* exit */
};

static const uint8_t reads_outside[] = {
    0x79, 0x10, 0x00, 0x10, 0x00, 0x00, 0x00, 0x00, /* r0 = *(u64 *)(r1 + 4096) */
    0x95, 0x00, 0x00, 0x00, 0x00, 0x00, 0x00, 0x00, /* exit */
};

static const uint8_t never_ends[] = {
    0xb7, 0x00, 0x00, 0x00, 0x00, 0x00, 0x00, 0x00, /* r0 = 0 */
    0x07, 0x00, 0x00, 0x00, 0x01, 0x00, 0x00, 0x00, /* here: r0 += 1 */
    0x05, 0x00, 0xfe, 0xff, 0x00, 0x00, 0x00, 0x00, /* goto here */
};

static const uint8_t takes_the_map[] = {
    0x18, 0x11, 0x00, 0x00, 0x03, 0x00, 0x00, 0x00, /* r1 = map_fd 3 ll */
    0x00, 0x00, 0x00, 0x00, 0x00, 0x00, 0x00, 0x00,
    0xb7, 0x00, 0x00, 0x00, 0x00, 0x00, 0x00, 0x00, /* r0 = 0 */
    0x95, 0x00, 0x00, 0x00, 0x00, 0x00, 0x00, 0x00, /* exit */
};

/* A packet as a driver may leave it, with room in front for the head of its frame. */
struct received {
    uint8_t head[BPFHOST_TEST_RUN_HEAD];
    uint8_t packet[64];
};

static bpfhost *host;

/* Each call has to come to a reply here: another code is a mistake of this program. */
static bpfhost_reply ask(const void *frame, size_t length)
{
    bpfhost_reply reply;
    int code = bpfhost_ask(host, frame, length, &reply);
    if (code != BPFHOST_DONE) {
        printf("no reply: %s\n", bpfhost_code_text(code));
        exit(1);
    }
    return reply;
}

static void load(const char *what, uint16_t tenant, const uint8_t *slots, size_t bytes)
{
    uint8_t frame[8 + sizeof filter];
    size_t length = bpfhost_frame_prog_load(frame, sizeof frame, tenant, BPFHOST_SOCKET_FILTER, slots, bytes / 8);
    bpfhost_reply reply = ask(frame, length);
    if (reply.status >= 0)
        printf("  %s: descriptor %d\n", what, (int)reply.status);
    else
        printf("  %s: status %d, slot %u, reason %u\n", what, (int)reply.status, (unsigned)reply.slot, (unsigned)reply.reason);
}

/* The packet is not copied: only the head in front of it is written. */
static void run(const char *what, struct received *it)
{
    size_t head = bpfhost_frame_test_run_head(it->head, sizeof it->head, HONEST, FILTER, NULL);
    bpfhost_reply reply = ask(it, head + sizeof it->packet);
    printf("  %s: status %d, keeps %u bytes\n", what, (int)reply.status, (unsigned)reply.result);
}

static void look_up(const char *who, uint16_t tenant)
{
    uint8_t frame[12];
    static const uint8_t index[4] = {0};
    size_t length = bpfhost_frame_map_lookup(frame, sizeof frame, tenant, COUNTS, index, sizeof index);
    bpfhost_reply reply = ask(frame, length);
    if (reply.status == 0)
        printf("  %s looks the count up: %u\n", who, (unsigned)bpfhost_get32(reply.payload));
    else
        printf("  %s looks the count up: status %d\n", who, (int)reply.status);
}

static struct received received_packet(uint8_t protocol)
{
    struct received it = {{0}, {0}};
    it.packet[12] = 0x08; /* IPv4 after the addresses of Ethernet */
    it.packet[14] = 0x45;
    it.packet[23] = protocol;
    return it;
}

int main(void)
{
    struct received packets[4];
    uint8_t frame[24];
    size_t length;
    bool refused = true;
    bpfhost_seed seed;
    int code;
    if (!bpfhost_random_seed(&seed)) {
        puts("no host: the system has no random bytes for its seed");
        return 1;
    }
    code = bpfhost_new(&host, TENANTS, &seed);
    if (code != BPFHOST_DONE) {
        printf("no host: %s\n", bpfhost_code_text(code));
        return 1;
    }

    puts("An honest tenant makes a map for one count and loads its filter:");
    length = bpfhost_frame_map_create(frame, sizeof frame, HONEST, BPFHOST_ARRAY, 4, 8, 1, 0);
    printf("  the map: descriptor %d\n", (int)ask(frame, length).status);
    load("the filter", HONEST, filter, sizeof filter);

    puts("It filters packets that lie in memory:");
    packets[0] = received_packet(17);
    packets[1] = received_packet(6);
    packets[2] = received_packet(17);
    packets[3] = received_packet(1);
    run("UDP", &packets[0]);
    run("TCP", &packets[1]);
    run("UDP", &packets[2]);
    run("ICMP", &packets[3]);

    puts("Its neighbour is hostile, and is refused:");
    load("a read outside the context", HOSTILE, reads_outside, sizeof reads_outside);
    load("a loop without end", HOSTILE, never_ends, sizeof never_ends);
    load("the other tenant's map", HOSTILE, takes_the_map, sizeof takes_the_map);
    look_up("the neighbour", HOSTILE);
    length = bpfhost_frame_close(frame, sizeof frame, HOSTILE, COUNTS);
    printf("  closes the map: status %d\n", (int)ask(frame, length).status);

    puts("Nothing of the honest tenant has changed:");
    look_up("it", HONEST);
    run("UDP", &packets[0]);

    code = bpfhost_memory_refused(host, HONEST, &refused);
    printf("Memory was refused to it: %s.\n", code != BPFHOST_DONE ? bpfhost_code_text(code) : refused ? "yes" : "never");
    bpfhost_free(host);
    return 0;
}
