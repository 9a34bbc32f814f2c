/* Packets of a capture in the format pcap, and of an interface. What they are for is in packets.h. */
#define _GNU_SOURCE
#include "packets.h"

#include <errno.h>
#include <stdarg.h>
#include <stdlib.h>
#include <time.h>
#ifdef __linux__
#include <arpa/inet.h>
#include <linux/if_ether.h>
#include <linux/if_packet.h>
#include <net/if.h>
#include <sys/socket.h>
#include <sys/time.h>
#endif

_Noreturn void fail(const char *form, ...)
{
    va_list words;
    va_start(words, form);
    fputs("packet_path: ", stderr);
    vfprintf(stderr, form, words);
    fputc('\n', stderr);
    va_end(words);
    exit(1);
}

double now(void)
{
    struct timespec time;
    clock_gettime(CLOCK_MONOTONIC, &time);
    return (double)time.tv_sec + (double)time.tv_nsec * 1e-9;
}

/* ---- a capture: pcap-savefile(5) */

static uint32_t number_of(const struct source *it, const uint8_t *at)
{
    uint32_t n = bpfhost_get32(at);
    return it->is_big_endian ? n >> 24 | (n >> 8 & 0xff00) | (n << 8 & 0xff0000) | n << 24 : n;
}

/* The first number gives the byte order, and whether times have microseconds or nanoseconds, which is not used here. */
struct source open_capture(const char *name)
{
    struct source it = {.name = name, .file = fopen(name, "rb"), .socket = -1};
    uint8_t head[24];
    if (it.file == NULL)
        fail("%s: %s", name, strerror(errno));
    size_t length = fread(head, 1, sizeof head, it.file);
    if (ferror(it.file))
        fail("%s: %s", name, strerror(errno));
    uint32_t first = length < 4 ? 0 : bpfhost_get32(head);
    it.is_big_endian = first == 0xd4c3b2a1 || first == 0x4d3cb2a1;
    if (first == 0x0a0d0d0a)
        fail("%s: it is a capture in the format pcapng, and only pcap is read here", name);
    if (!it.is_big_endian && first != 0xa1b2c3d4 && first != 0xa1b23c4d)
        fail("%s: it is no capture in the format pcap", name);
    if (length < sizeof head)
        fail("%s: it is cut off in its header", name);
    unsigned version = it.is_big_endian ? (unsigned)(head[4] << 8 | head[5]) : bpfhost_get16(head + 4);
    if (version != 2)
        fail("%s: it has version %u of pcap, and only 2 is supported", name, version);
    return it;
}

/* Reads a packet to an address with room for the longest one. false: there is none. */
static bool next_of_capture(struct source *it, uint8_t *room, size_t *length)
{
    uint8_t head[16];
    size_t got = fread(head, 1, sizeof head, it->file);
    if (got == sizeof head) {
        *length = number_of(it, head + 8);
        if (*length > BPFHOST_LONGEST_PACKET) {
            it->wrong = "it has more than 65,536 bytes, by its header";
            return false;
        }
        if (fread(room, 1, *length, it->file) == *length)
            return true;
    }
    if (ferror(it->file))
        it->wrong = strerror(errno);
    else if (got != 0)
        it->wrong = "the capture is cut off in it";
    return false;
}

/* ---- an interface: packet(7) */

#ifdef __linux__
struct source open_interface(const char *name, double seconds)
{
    struct source it = {.name = name, .until = now() + seconds};
    struct sockaddr_ll all = {.sll_family = AF_PACKET, .sll_protocol = htons(ETH_P_ALL)};
    struct timeval patience = {.tv_usec = 100000};
    all.sll_ifindex = (int)if_nametoindex(name);
    if (all.sll_ifindex == 0)
        fail("%s: %s", name, strerror(errno));
    it.socket = socket(AF_PACKET, SOCK_RAW, 0);
    if (it.socket < 0)
        fail("%s: its packets may not be read: %s", name, strerror(errno));
    if (setsockopt(it.socket, SOL_SOCKET, SO_RCVTIMEO, &patience, sizeof patience) != 0
        || bind(it.socket, (struct sockaddr *)&all, sizeof all) != 0)
        fail("%s: %s", name, strerror(errno));
    return it;
}

/* Fills the batch with the packets that are there, by one system call; it waits for the first one up to a tenth of a second. Of a longer
 * packet the first 65,536 bytes are taken. */
static void fill_from_interface(struct source *it, struct batch *batch)
{
    struct mmsghdr messages[BATCH] = {{.msg_len = 0}};
    struct sockaddr_ll from[BATCH];
    struct iovec rooms[BATCH];
    for (size_t i = 0; i < BATCH; i++) {
        rooms[i] = (struct iovec){batch->bytes + i * BPFHOST_LONGEST_PACKET, BPFHOST_LONGEST_PACKET};
        messages[i].msg_hdr = (struct msghdr){.msg_name = &from[i], .msg_namelen = sizeof from[i], .msg_iov = &rooms[i], .msg_iovlen = 1};
    }
    int got = recvmmsg(it->socket, messages, BATCH, MSG_WAITFORONE, NULL);
    if (got < 0 && errno != EAGAIN && errno != EINTR)
        it->wrong = strerror(errno);
    batch->count = batch->context_count = got < 0 ? 0 : (size_t)got;
    for (size_t i = 0; i < batch->count; i++) {
        batch->packets[i] = (bpfhost_packet){rooms[i].iov_base, messages[i].msg_len};
        batch->contexts[i] = (bpfhost_context){
            .pkt_type = from[i].sll_pkttype, .protocol = from[i].sll_protocol, .ifindex = (uint32_t)from[i].sll_ifindex};
    }
}
#else
struct source open_interface(const char *name, double seconds)
{
    (void)seconds;
    fail("%s: interfaces are read on Linux only", name);
}

static void fill_from_interface(struct source *it, struct batch *batch)
{
    (void)it, (void)batch;
}
#endif

static void fill_from_capture(struct source *it, struct batch *batch)
{
    size_t end = 0, length = 0;
    while (batch->count < BATCH && it->wrong == NULL && next_of_capture(it, batch->bytes + end, &length)) {
        batch->packets[batch->count] = (bpfhost_packet){batch->bytes + end, length};
        end += length;
        batch->ends[batch->count++] = end;
    }
}

bool next_batch(struct source *source, struct batch *batch)
{
    batch->count = batch->context_count = 0;
    if (source->file != NULL) {
        fill_from_capture(source, batch);
        return batch->count != 0;
    }
    if (now() >= source->until)
        return false;
    fill_from_interface(source, batch);
    return batch->count != 0 || source->wrong == NULL;
}
