/* How much memory tenants hold at most, by the library: each has eight full hash maps with the longest keys, held by a program, and a program
 * of 4,096 slots at each descriptor. README.md explains the output. usage: worst_memory TENANTS */
#define _GNU_SOURCE
#include "worst.h"
#include <malloc.h>
#include <unistd.h>

#define MAPS 8
#define KEYS 4096
#define KEY_SIZE 512
#define VALUE_SIZE 8
#define SLOTS 4096
#define DESCRIPTORS 64
#define FIRST 3

/* A number of /proc/self/status, in MB of 10^6 bytes. */
static double status_mb(const char *name)
{
    char line[256];
    FILE *file = fopen("/proc/self/status", "r");
    double found = 0;
    must(file != NULL, "no /proc/self/status");
    while (fgets(line, sizeof line, file))
        if (strncmp(line, name, strlen(name)) == 0)
            found = (double)strtoul(line + strlen(name) + 1, NULL, 10) * 1024 / 1e6;
    (void)fclose(file);
    return found;
}

static double resident(void)
{
    return status_mb("VmRSS");
}

/* The peak counts from here on. */
static void begin_peak(void)
{
    FILE *file = fopen("/proc/self/clear_refs", "w");
    must(file != NULL && fputs("5", file) >= 0 && fclose(file) == 0, "the peak can't be cleared");
}

static void done(bpfhost *host, const uint8_t *frame, size_t length)
{
    must(length != 0 && status_of(host, frame, length) >= 0, "a frame is refused");
}

static void fill(bpfhost *host, uint16_t tenant, uint32_t fd)
{
    uint8_t frame[16 + KEY_SIZE + VALUE_SIZE], key[KEY_SIZE] = {0}, value[VALUE_SIZE] = {1};
    for (uint32_t i = 0; i < KEYS; i++) {
        bpfhost_put32(key, i);
        done(host, frame, bpfhost_frame_map_update(frame, sizeof frame, tenant, fd, BPFHOST_ANY, key, sizeof key, value, sizeof value));
    }
}

/* A program of the longest length that names the maps at so many descriptors. */
static size_t make_load(uint8_t *frame, size_t room, uint16_t tenant, uint32_t maps)
{
    static uint8_t slots[SLOTS * 8];
    memset(slots, 0, sizeof slots);
    for (uint32_t at = 0; at < SLOTS; at++)
        slots[8 * at] = 0xb7;
    for (uint32_t at = 0; at < maps; at++) {
        slots[16 * at] = 0x18, slots[16 * at + 1] = 0x11, slots[16 * at + 8] = 0;
        bpfhost_put32(slots + 16 * at + 4, FIRST + at);
    }
    slots[8 * (SLOTS - 1)] = 0x95;
    return bpfhost_frame_prog_load(frame, room, tenant, BPFHOST_SOCKET_FILTER, slots, SLOTS);
}

/* Eight full maps that only a program holds, and programs at the other descriptors but `left`. */
static void make_tenant(bpfhost *host, uint16_t tenant, uint32_t left)
{
    static uint8_t frame[SLOTS * 8 + 64];
    for (uint32_t map = 0; map < MAPS; map++) {
        done(host, frame, bpfhost_frame_map_create(frame, sizeof frame, tenant, BPFHOST_HASH, KEY_SIZE, VALUE_SIZE, KEYS, 0));
        fill(host, tenant, FIRST + map);
    }
    done(host, frame, make_load(frame, sizeof frame, tenant, MAPS));
    for (uint32_t map = 0; map < MAPS; map++)
        done(host, frame, bpfhost_frame_close(frame, sizeof frame, tenant, FIRST + map));
    for (uint32_t open = 1; open < DESCRIPTORS - left; open++)
        done(host, frame, make_load(frame, sizeof frame, tenant, 0));
}

/* A program whose load takes the most memory: half of its slots are jumps, each to a slot of its own in the other half. */
static size_t make_jumps(uint8_t *frame, size_t room, uint16_t tenant)
{
    enum { JUMPS = (SLOTS - 2) / 2 - 1 };
    static uint8_t slots[SLOTS * 8];
    memset(slots, 0, sizeof slots);
    slots[0] = 0x61, slots[1] = 0x12;
    for (uint32_t at = 1; at < SLOTS - 1; at++) {
        slots[8 * at] = at <= JUMPS ? 0x15 : 0xb7;
        slots[8 * at + 1] = at <= JUMPS ? 2 : 0;
        bpfhost_put16(slots + 8 * at + 2, at <= JUMPS ? JUMPS : 0);
        bpfhost_put32(slots + 8 * at + 4, at);
    }
    slots[8 * (SLOTS - 1)] = 0x95;
    return bpfhost_frame_prog_load(frame, room, tenant, BPFHOST_SOCKET_FILTER, slots, SLOTS);
}

static bool drops(void *context, const uint8_t *frames, size_t length)
{
    (void)context, (void)frames, (void)length;
    return true;
}

int main(int argc, char **argv)
{
    static uint8_t frame[SLOTS * 8 + 64];
    const bpfhost_seed seed = {{0x0123456789abcdef, 0xfedcba9876543210}};
    unsigned long tenants = argc == 2 ? strtoul(argv[1], NULL, 10) : 0;
    bpfhost *host = NULL;
    double begin = resident(), empty, full, loads, loaded, saves;
    must(tenants >= 1 && tenants <= BPFHOST_MOST_TENANTS, "usage: worst_memory TENANTS");
    must(bpfhost_new(&host, tenants, &seed) == BPFHOST_DONE, "no host");
    empty = resident();
    for (uint16_t tenant = 0; tenant < tenants; tenant++)
        make_tenant(host, tenant, tenant == 0);
    full = resident();
    begin_peak();
    done(host, frame, make_jumps(frame, sizeof frame, 0));
    loads = status_mb("VmHWM") - full;
    loaded = resident();
    begin_peak();
    must(bpfhost_save(host, 0, drops, NULL) == BPFHOST_DONE, "no save");
    saves = status_mb("VmHWM") - loaded;
    printf("%lu %.2f %.2f %.2f %.2f", tenants, empty - begin, full - begin, loads, saves);
    bpfhost_free(host);
    printf(" %.2f", resident() - begin);
    (void)malloc_trim(0);
    printf(" %.2f\n", resident() - begin);
    return 0;
}
