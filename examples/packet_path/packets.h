/* Packets of a capture file or of an interface, a batch at a time. */
#ifndef PACKETS_H
#define PACKETS_H

#include <bpfhost.h>
#include <stdbool.h>
#include <stddef.h>
#include <stdint.h>
#include <stdio.h>

enum { BATCH = 64 };

/* Packets of a batch, each with its address. Those of an interface have the contexts that the kernel's filters would get, and lie apart; those
 * of a capture have none, and lie one after another from the first byte on: packet i ends before byte ends[i]. */
struct batch {
    size_t count, context_count, ends[BATCH];
    bpfhost_packet packets[BATCH];
    bpfhost_context contexts[BATCH];
    uint8_t bytes[BATCH * BPFHOST_LONGEST_PACKET];
};

/* A source of packets: a capture in the pcap format, or an interface until some time. `wrong` says why no more came, and is
 * null if all came. */
struct source {
    const char *name, *wrong;
    FILE *file;
    bool is_big_endian;
    int socket;
    double until;
};

/* Opens a capture, of either byte order, with microseconds or nanoseconds; or an interface, for so many seconds. If it is rejected, the
 * program prints why and exits with status 1. */
struct source open_capture(const char *name);
struct source open_interface(const char *name, double seconds);

/* Fills the batch, which may stay empty if an interface has no packets. false: no more will come. */
bool next_batch(struct source *source, struct batch *batch);

/* Seconds of a clock that only goes forward. */
double now(void);

/* Prints what is wrong to standard error, and ends the program with status 1. */
_Noreturn void fail(const char *form, ...);

#endif
