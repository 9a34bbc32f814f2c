/* bpfhost.h: bpfhost as a library for C11 and C++11. A host of 1 to 64 tenants; a frame in, a reply out. What a filter in C includes is
 * another header, bpfhost/filter.h.
 *
 * The functions bpfhost_c_* are Rattle, proved in crates/bpfhost_c. All else here is C, which nobody proves: it tests what a
 * proved function can't be asked about, as a null pointer, builds frames and reads replies. docs/PROTOCOL.md has the commands,
 * their limits and their error numbers; linux/bpf.h names the same numbers BPF_MAP_CREATE and so on.
 *
 * Units: all lengths and sizes are bytes, unless a name says slots, entries or tenants. Numbers in frames are little-endian, and
 * these functions write and read them so on every machine.
 *
 * What a caller owes, and nothing tests; if BPFHOST_DEBUG is defined before this header is included, what is marked by a star is tested, and a
 * sentence on standard error and abort() end a program that breaks it (docs/EMBEDDING.md, "Debug builds"):
 *   * A bpfhost comes from bpfhost_new, and is not used or freed after bpfhost_free.
 *   - A pointer that is not null is aligned for its type and leads to as many bytes as the call says. They belong to the call
 *     while it lasts.
 *   - What is lent, a reply (bpfhost_handle_lent, bpfhost_ask) or the frames of a part (bpfhost_save_part, a sink), is read only before
 *     the next call on its host, bpfhost_free included. Only the library writes it.
 *   * A host is in one call at a time. It may go from thread to thread, ordered by a lock, or by a thread's start or join; a
 *     lent reply goes with it. Two hosts share nothing.
 *   - No call from a signal handler, or from the forked child of a process with threads.
 *   - There is stack: 256 KiB are more than enough.
 *   - malloc, calloc, realloc and free come from one allocator, and align as malloc does.
 *
 * What each function tests before it writes anything: that no pointer is null which must lead somewhere, that no length is above
 * PTRDIFF_MAX, that what it may write overlaps nothing else that it is given, and that no frame or packet lies in what its host has
 * lent. If a test fails, the function returns which one, or 0 if it builds a frame, and writes nothing; only bpfhost_handle_lent may
 * empty its reply then. Only bpfhost_put16 and the small functions next to it test nothing.
 */
#ifndef BPFHOST_H
#define BPFHOST_H

#include <stdbool.h>
#include <stddef.h>
#include <stdint.h>
#include <stdio.h>
#include <stdlib.h>
#include <string.h>
#if defined __GLIBC__ && defined __GLIBC_PREREQ
#if __GLIBC_PREREQ(2, 33)
#include <malloc.h>
#define BPFHOST_HAS_MALLINFO2
#endif
#endif

#ifdef __cplusplus
extern "C" {
/* These functions are C, and C has no other casts. */
#ifdef __GNUC__
#pragma GCC diagnostic push
#pragma GCC diagnostic ignored "-Wold-style-cast"
#endif
#endif

/* How code is compiled: a function into its caller although it is long, since the caller's constants leave little of it; a function by itself,
 * as a call seldom needs it; and what mostly holds, so that clang does not compute what comes after `||` as well. */
#ifdef __GNUC__
#define BPFHOST_BY_FORCE __attribute__((always_inline))
#define BPFHOST_SELDOM __attribute__((cold))
#define BPFHOST_MOSTLY(holds) __builtin_expect(holds, 1)
#else
#define BPFHOST_BY_FORCE
#define BPFHOST_SELDOM
#define BPFHOST_MOSTLY(holds) (holds)
#endif

/* ---- version: that of this header, with which a caller is compiled. docs/RELEASING.md says what may change in which version. The functions
 * in this file become part of the caller, so the library that it meets when it runs may be another one: bpfhost_library_version asks it. */

#define BPFHOST_VERSION_MAJOR 0
#define BPFHOST_VERSION_MINOR 3
#define BPFHOST_VERSION_PATCH 0
#define BPFHOST_VERSION "0.3.0"

/* The version as one number: its three numbers in eight bits each, as bpfhost_library_version has them. */
#define BPFHOST_VERSION_NUMBER (BPFHOST_VERSION_MAJOR * 65536 + BPFHOST_VERSION_MINOR * 256 + BPFHOST_VERSION_PATCH)

/* The version as text: "0.3.0". */
static inline const char *bpfhost_version(void)
{
    return BPFHOST_VERSION;
}

/* Proved: the version of the library, and the number of its binary interface. They may be called before anything else. */
uint32_t bpfhost_c_version(void);
uint32_t bpfhost_c_abi(void);

/* The version of the library that is linked, in the form of BPFHOST_VERSION_NUMBER. */
static inline uint32_t bpfhost_library_version(void)
{
    return bpfhost_c_version();
}

/* ---- limits: docs/PROTOCOL.md has the others. */

/* limits: written by tools/generate */
#define BPFHOST_MOST_TENANTS 64 /* the most tenants of a host */
#define BPFHOST_FIRST_DESCRIPTOR 3 /* the lowest descriptor */
#define BPFHOST_MOST_DESCRIPTORS 64 /* the most open descriptors of a tenant */
#define BPFHOST_LONGEST_PACKET 65536 /* the most bytes of a packet */
#define BPFHOST_LONGEST_FRAME 131072 /* the most bytes of a frame, without its length field; the reply to a longer one is E2BIG */
#define BPFHOST_LONGEST_REPLY 4108 /* the most bytes of a reply, its length field included */
#define BPFHOST_LONGEST_PAYLOAD 4096 /* the most bytes of a reply's payload */
#define BPFHOST_TEST_RUN_HEAD 48 /* the bytes of a PROG_TEST_RUN frame before its packet */
#define BPFHOST_LONGEST_PART 610304 /* the most bytes of a part of a save: 1,024 of the longest keys */
#define BPFHOST_CALL_WEIGHT 128 /* what a call of a helper counts for in the bound of a batch, in instructions besides its own */
#define BPFHOST_ABI 3 /* the number of the library's binary interface, which changes with its soname */
/* end of limits */

/* ---- codes of calls. Each call returns one; a status in a reply is another thing. ERR_NO_HOST and ERR_HAS_HOST come only from
 * the functions bpfhost_c_*: a bpfhost has its host from bpfhost_new on. */

enum bpfhost_code {
    /* codes: written by tools/generate */
    BPFHOST_DONE = 0,                  /* the call succeeded */
    BPFHOST_ERR_NO_HOST = -1,          /* the handle is empty */
    BPFHOST_ERR_HAS_HOST = -2,         /* the handle has a host already */
    BPFHOST_ERR_TENANT_COUNT = -3,     /* a host has 1 to 64 tenants */
    BPFHOST_ERR_NO_MEMORY = -4,        /* out of memory for the host or for the call */
    BPFHOST_ERR_BUFFER_TOO_SMALL = -5, /* the buffer is smaller than the longest reply, or than a value or a key */
    BPFHOST_ERR_NO_PART = -6,          /* the tenant has no such part, or is not served */
    BPFHOST_ERR_TOO_BIG = -7,          /* a struct has a word that the library does not know, and that is not 0 */
    BPFHOST_ERR_SIZE = -8,             /* a struct has no size, or one of no whole words */
    BPFHOST_ERR_STALE = -9,            /* a descriptor of the program names no map of the shape with which it was prepared */
    BPFHOST_ERR_NO_PROGRAM = -10,      /* there is no prepared program: it was installed or freed */
    BPFHOST_ERR_HAS_PROGRAM = -11,     /* there is a prepared program already */
    BPFHOST_ERR_DESCRIPTORS = -12,     /* a descriptor is given an object that there cannot be, or there are too many */
    BPFHOST_ERR_STYLE = -13,           /* there is no style of a log with this number */
    /* only of this header; if more than one of them holds, the call returns one that does */
    BPFHOST_ERR_NULL = -16,            /* a pointer is null */
    BPFHOST_ERR_LENGTH = -17,          /* a length is above PTRDIFF_MAX */
    BPFHOST_ERR_OVERLAP = -18,         /* an object that the call may write, the handle included, overlaps another one */
    BPFHOST_ERR_NO_REPLY = -19,        /* the bytes are not one whole reply */
    BPFHOST_ERR_STOPPED = -20,         /* the sink stopped the save */
    BPFHOST_ERR_REFUSED = -21,         /* a frame that restores the tenant is refused */
    BPFHOST_ERR_BAD_FRAMES = -22,      /* the bytes are not whole frames of this tenant, or of one tenant */
    BPFHOST_ERR_VERSION = -23,         /* the library is of another binary interface than the header */
    BPFHOST_ERR_LENT = -24,            /* a frame or a packet lies in what the host has lent */
    BPFHOST_ERR_WHICH = -25            /* there is no count of this number here */
    /* end of codes */
};

/* ---- a host */

/* A host, by the handle that bpfhost_new makes. Only these functions look into it. */
typedef struct bpfhost bpfhost;

/* The bytes of a handle, which is one pointer. It is null, and all its bytes are zero, while the handle is empty. */
#define BPFHOST_HANDLE_SIZE (sizeof(void *))

/* Bytes that are lent. */
typedef struct bpfhost_bytes {
    const uint8_t *at;
    size_t length;
} bpfhost_bytes;

/* The memory of a bpfhost: its handle, which only the library writes, and what this header keeps of it. All is zero at first. Only the
 * functions of this header look into it. */
typedef struct bpfhost_memory {
    void *handle;
    const uint8_t *replies; /* the buffer in which replies are lent, BPFHOST_LONGEST_REPLY bytes */
    bpfhost_bytes part;     /* the part of a save that was lent last */
    uint32_t state;         /* of BPFHOST_DEBUG, as is the next: whether the host is made or freed */
    uint32_t is_busy;       /* whether it is in a call */
} bpfhost_memory;

/* The seed of a host's hash maps: two random words. Who knows them can choose keys that collide, which makes the calls of a map
 * slow; no reply depends on them. */
typedef struct bpfhost_seed {
    uint64_t words[2];
} bpfhost_seed;

/* What a run finds in its context after the packet's length: the fields of the kernel's __sk_buff, with any values. A later version may
 * have more words after these. So each call has the size of a context, as one of bpf(2) has that of its attributes: a word
 * that a caller does not have counts as 0, and one that the library does not know has to be 0 (ERR_TOO_BIG). Bytes, a packet and a seed
 * stay as they are. */
typedef struct bpfhost_context {
    uint32_t pkt_type, mark, queue_mapping, protocol, vlan_present, vlan_tci, vlan_proto, priority, ingress_ifindex, ifindex;
} bpfhost_context;

/* A packet that lies anywhere: its address, and how many bytes it has. If it has none, `at` may be null. */
typedef struct bpfhost_packet {
    const void *at;
    size_t length;
} bpfhost_packet;

/* How much a tenant has at a moment. It stays as it is in later versions. */
typedef struct bpfhost_counts {
    uint32_t maps;        /* live maps, those that an open descriptor or a loaded program names */
    uint32_t entries;     /* the keys of all of them; an array has all its indices */
    uint32_t value_bytes; /* the bytes that their values take, each rounded up to a multiple of eight */
    uint32_t programs;    /* open descriptors that name a program */
    uint32_t descriptors; /* open descriptors */
    bool memory_refused;  /* whether memory was ever refused to a load or a new map */
} bpfhost_counts;

enum bpfhost_kind { BPFHOST_NOTHING, BPFHOST_MAP, BPFHOST_PROGRAM };

/* What a descriptor names. Fields that do not belong to its kind are 0. It stays as it is in later versions. */
typedef struct bpfhost_described {
    uint32_t kind;        /* one of bpfhost_kind */
    uint32_t type;        /* of a map: BPFHOST_HASH or BPFHOST_ARRAY */
    uint32_t key_size;    /* in bytes */
    uint32_t value_size;  /* in bytes */
    uint32_t max_entries; /* the most keys that a map may have */
    uint32_t entries;     /* the keys that it has; an array has all its indices */
    uint32_t slots;       /* of a program */
} bpfhost_described;

/* What a program costs: the most instructions, and the most calls of helpers, on a path through it, which may be two paths. No run executes
 * more. It stays as it is in later versions. */
typedef struct bpfhost_cost {
    uint32_t instructions; /* 1 to 4,096 */
    uint32_t calls;        /* 0 to 4,095 */
} bpfhost_cost;

/* A log of the verifier: its length in bytes, and whether the program is accepted. */
typedef struct bpfhost_logged {
    size_t length;
    bool is_accepted;
} bpfhost_logged;

/* A program that was verified without a host, by the handle that bpfhost_prepare makes. Only these functions look into it. */
typedef struct bpfhost_prepared bpfhost_prepared;

/* The object that a descriptor is to name for a program that is prepared. */
typedef struct bpfhost_descriptor {
    uint32_t fd;
    uint32_t type;       /* 0 for a program, BPFHOST_HASH or BPFHOST_ARRAY for a map */
    uint32_t key_size;   /* of a map, as bpfhost_map_attr has them */
    uint32_t value_size;
    uint32_t entries;
} bpfhost_descriptor;

/* Why slots are refused; all 0 if they are not. */
typedef struct bpfhost_refusal {
    int32_t status;
    uint32_t slot, reason;
} bpfhost_refusal;

/* The proved functions. No pointer is null, no length is above PTRDIFF_MAX, what they may write overlaps nothing else that they
 * are given, `*refused` is false or true, and `reply->at` leads to `reply->length` bytes, as `frames->at` does. The contexts of
 * bpfhost_c_run_packets are `word_count` words, and each context has `context_words` of them. Call those below in their place. */
int32_t bpfhost_c_new(bpfhost *handle, size_t tenants, uint64_t first, uint64_t second);
int32_t bpfhost_c_handle(bpfhost *handle, const uint8_t *frame, size_t frame_length, uint8_t *room, size_t room_length,
                         size_t *written);
int32_t bpfhost_c_handle_lent(bpfhost *handle, const uint8_t *frame, size_t frame_length, bpfhost_bytes *reply);
int32_t bpfhost_c_run_packets(bpfhost *handle, uint16_t tenant, uint32_t fd, uint64_t bound, const uint32_t *contexts,
                              size_t word_count, size_t context_words, const uint8_t *bytes, size_t byte_count, const size_t *ends,
                              size_t packets, uint32_t *results, size_t room, int32_t *status, size_t *ran);
int32_t bpfhost_c_save(bpfhost *handle, uint16_t tenant, size_t part, bpfhost_bytes *frames);
int32_t bpfhost_c_memory_refused(bpfhost *handle, uint16_t tenant, bool *refused);
int32_t bpfhost_c_status(bpfhost *handle, uint16_t tenant, bpfhost_counts *counts);
int32_t bpfhost_c_describe(bpfhost *handle, uint16_t tenant, uint32_t fd, bpfhost_described *described);
int32_t bpfhost_c_program_cost(bpfhost *handle, uint16_t tenant, uint32_t fd, bpfhost_cost *cost);
int32_t bpfhost_c_verify(bpfhost *handle, uint16_t tenant, const uint8_t *slots, size_t slots_length, uint32_t style, uint8_t *room,
                         size_t room_length, bpfhost_logged *logged);
int32_t bpfhost_c_prepare(bpfhost_prepared *prepared, const uint8_t *slots, size_t slots_length, const bpfhost_descriptor *descriptors,
                          size_t descriptor_count, bpfhost_refusal *refusal);
int32_t bpfhost_c_install(bpfhost *handle, uint16_t tenant, bpfhost_prepared *prepared, int32_t *status);
void bpfhost_c_prepared_free(bpfhost_prepared *prepared);
void bpfhost_c_free(bpfhost *handle);

/* Whether two objects have no byte in common. One that reaches the last address counts as all bytes: no object lies there. */
static inline bool bpfhost_are_apart(const void *a, size_t a_length, const void *b, size_t b_length)
{
    const uintptr_t a_begin = (uintptr_t)a, a_end = a_begin + a_length, b_begin = (uintptr_t)b, b_end = b_begin + b_length;
    if (a_begin < a_end && b_begin < b_end)
        return a_end <= b_begin || b_end <= a_begin;
    return a_length == 0 || b_length == 0;
}

/* A word of an object that is not above PTRDIFF_MAX if the object is not null, begins in the lower half of the addresses and is not longer than
 * any object: then it ends before the last address. The words of several objects, joined by `|`, say whether this is so for all of them. */
static inline uintptr_t bpfhost_word_of(const void *at, size_t length)
{
    return ((uintptr_t)at - 1) | length;
}

/* Whether one of two such objects ends before the other begins. */
static inline bool bpfhost_are_beside(const void *a, size_t a_length, const void *b, size_t b_length)
{
    return BPFHOST_MOSTLY((uintptr_t)a + a_length <= (uintptr_t)b) || (uintptr_t)b + b_length <= (uintptr_t)a;
}

/* The same by one comparison, for two such objects of which one has bytes: how far it is from the end of the second to the first, round all
 * addresses. It is less than bpfhost_are_beside if the lengths are constant, or the objects are parts of one. */
static inline bool bpfhost_are_disjoint(const void *a, size_t a_length, const void *b, size_t b_length)
{
    return (uintptr_t)a - ((uintptr_t)b + b_length) <= (uintptr_t)0 - (a_length + b_length);
}

/* What is wrong with two objects of a call that may write one of them, or DONE. */
static inline int bpfhost_pair_code(const void *a, size_t a_length, const void *b, size_t b_length)
{
    if ((a_length | b_length) <= PTRDIFF_MAX && BPFHOST_MOSTLY(bpfhost_are_disjoint(a, a_length, b, b_length))
        && (bpfhost_word_of(a, 0) | bpfhost_word_of(b, 0)) <= PTRDIFF_MAX)
        return BPFHOST_DONE;
    if (a == NULL || b == NULL)
        return BPFHOST_ERR_NULL;
    if (a_length > PTRDIFF_MAX || b_length > PTRDIFF_MAX)
        return BPFHOST_ERR_LENGTH;
    return bpfhost_are_apart(a, a_length, b, b_length) ? BPFHOST_DONE : BPFHOST_ERR_OVERLAP;
}

/* What a host has in its memory. */
static inline bpfhost_memory *bpfhost_memory_of(const bpfhost *host)
{
    return (bpfhost_memory *)(uintptr_t)host;
}

/* ---- BPFHOST_DEBUG: whether a call on a host may be made. Without it these functions do nothing, but that memory is freed. With it a freed
 * host is emptied, and its memory is kept for ever, in a list, so that it is known again. Units with and without it may pass hosts to one
 * another: what only the others do with a host is not tested. */

#ifdef BPFHOST_DEBUG
#ifndef __GNUC__
#error "BPFHOST_DEBUG needs the atomic operations of GCC or clang"
#endif
enum { BPFHOST_MADE = 0x6d616465, BPFHOST_FREED = 0x66726565 };
static bpfhost_memory *bpfhost_freed_hosts; /* each leads to the one before by the address of its part */
#define BPFHOST_STOP(sentence) (fputs("bpfhost: " sentence "\n", stderr), abort())
#endif

/* Begins a call of a proved function. */
static inline void bpfhost_enter(const bpfhost *host)
{
#ifdef BPFHOST_DEBUG
    bpfhost_memory *memory = bpfhost_memory_of(host);
    uint32_t was_busy = __atomic_exchange_n(&memory->is_busy, 1, __ATOMIC_ACQ_REL);
    uint32_t state = __atomic_load_n(&memory->state, __ATOMIC_ACQUIRE);
    if (state == BPFHOST_FREED)
        BPFHOST_STOP("a host or a prepared program is used or freed after it was freed");
    if (state != BPFHOST_MADE && state != 0) /* a unit without BPFHOST_DEBUG leaves it 0 */
        BPFHOST_STOP("what is used is no host of bpfhost_new and no prepared program, or its memory was overwritten");
    if (was_busy != 0)
        BPFHOST_STOP("two calls on a host or a prepared program at once: of two threads, or of a signal handler");
#else
    (void)host;
#endif
}

/* Ends it. */
static inline void bpfhost_leave(const bpfhost *host)
{
#ifdef BPFHOST_DEBUG
    __atomic_store_n(&bpfhost_memory_of(host)->is_busy, 0, __ATOMIC_RELEASE);
#else
    (void)host;
#endif
}

/* Gives back the memory of a host that the library has freed. */
static inline void bpfhost_give_back(bpfhost *host)
{
#ifdef BPFHOST_DEBUG
    bpfhost_memory *memory = bpfhost_memory_of(host), *before = __atomic_load_n(&bpfhost_freed_hosts, __ATOMIC_RELAXED);
    memory->replies = NULL;
    memory->part.length = 0;
    __atomic_store_n(&memory->state, BPFHOST_FREED, __ATOMIC_RELEASE);
    bpfhost_leave(host);
    do
        memory->part.at = (const uint8_t *)before;
    while (!__atomic_compare_exchange_n(&bpfhost_freed_hosts, &before, memory, false, __ATOMIC_RELEASE, __ATOMIC_RELAXED));
#else
    free(host);
#endif
}

/* ERR_LENT if bytes have one in common with what the host has lent: its buffer for replies, which is never moved, or the last part of
 * a save. Else DONE, as for no bytes at an address of the caller's. Their last byte is in the buffer, or up to `length - 1` bytes after
 * it, if they have one of it. */
static inline int bpfhost_lent_code(const bpfhost *host, const void *at, size_t length)
{
    const bpfhost_memory *memory = bpfhost_memory_of(host);
    const uintptr_t last = (uintptr_t)at + (length - 1);
    if (last - (uintptr_t)memory->replies < BPFHOST_LONGEST_REPLY + (length - 1))
        return BPFHOST_ERR_LENT;
    return memory->part.length == 0 || bpfhost_are_apart(at, length, memory->part.at, memory->part.length) ? BPFHOST_DONE
                                                                                                          : BPFHOST_ERR_LENT;
}

/* Whether such an object ends before the host's buffer for replies begins, or begins after it, and has no byte of the last part of a save. */
static inline bool bpfhost_is_beside_lent(const bpfhost *host, const void *at, size_t length)
{
    const bpfhost_memory *memory = bpfhost_memory_of(host);
    return bpfhost_are_beside(at, length, memory->replies, BPFHOST_LONGEST_REPLY)
        && (BPFHOST_MOSTLY(memory->part.length == 0) || bpfhost_are_beside(at, length, memory->part.at, memory->part.length));
}

/* The address of bytes; if there are none, it may be null. */
static inline const uint8_t *bpfhost_bytes_at(const void *bytes, size_t length)
{
    static const uint8_t no_bytes[1] = {0};
    return length == 0 ? no_bytes : (const uint8_t *)bytes;
}

/* Fills a seed with random bytes of the system, of /dev/urandom. false: there are none, and the seed is as it was; then take words
 * from another source that no tenant can guess. */
static inline bool bpfhost_random_seed(bpfhost_seed *seed)
{
    bpfhost_seed found;
    FILE *source = seed == NULL ? NULL : fopen("/dev/urandom", "rb");
    bool whole;
    if (source == NULL)
        return false;
    whole = setvbuf(source, NULL, _IONBF, 0) == 0 && fread(&found, sizeof found, 1, source) == 1;
    (void)fclose(source);
    if (whole)
        *seed = found;
    return whole;
}

/* Makes a host for so many tenants, numbered from 0, with the seed of its hash maps; `*host` leads to it then. It takes some 260 KiB
 * for each tenant, which bpfhost_free gives back. ERR_TENANT_COUNT, ERR_NO_MEMORY, ERR_NULL, ERR_OVERLAP: nothing is written. Nor is
 * it with ERR_VERSION: the library is of another binary interface than this header. */
static inline int bpfhost_new(bpfhost **host, size_t tenants, const bpfhost_seed *seed)
{
    bpfhost *made;
    bpfhost_bytes lent = {bpfhost_bytes_at(NULL, 0), 0};
    int code = bpfhost_pair_code(host, sizeof *host, seed, sizeof *seed);
    if (code == BPFHOST_DONE && bpfhost_c_abi() != BPFHOST_ABI)
        code = BPFHOST_ERR_VERSION;
    if (code != BPFHOST_DONE)
        return code;
    made = (bpfhost *)calloc(1, sizeof(bpfhost_memory));
    if (made == NULL)
        return BPFHOST_ERR_NO_MEMORY;
    code = (int)bpfhost_c_new(made, tenants, seed->words[0], seed->words[1]);
    if (code != BPFHOST_DONE) {
        free(made);
        return code;
    }
    /* The reply to a frame of no tenant shows the address of the buffer for replies. */
    (void)bpfhost_c_handle_lent(made, lent.at, 0, &lent);
    bpfhost_memory_of(made)->replies = lent.at;
#ifdef BPFHOST_DEBUG
    bpfhost_memory_of(made)->state = BPFHOST_MADE;
#endif
    *host = made;
    return code;
}

/* What is wrong with the objects of a call that handles a frame and writes `out` and its host, or DONE. */
static inline int bpfhost_frame_code(const bpfhost *host, const uint8_t *frame, size_t frame_length, const void *out,
                                     size_t out_length)
{
    int code = bpfhost_pair_code(host, sizeof(bpfhost_memory), frame, frame_length);
    if (code == BPFHOST_DONE)
        code = bpfhost_pair_code(host, sizeof(bpfhost_memory), out, out_length);
    if (code == BPFHOST_DONE)
        code = bpfhost_pair_code(frame, frame_length, out, out_length);
    return code;
}

/* Most calls are right, and few instructions show it: no pointer is null, and the objects lie in the lower half of the addresses, one after
 * another in any order. Then bpfhost_is_.._right is true, and the proved function is called. Else bpfhost_.._by_pairs tests each pair of objects,
 * and says what is wrong, if anything is. The address of no bytes, packets or contexts may be null: it was replaced before. */
static inline bool bpfhost_is_frame_right(const bpfhost *host, const uint8_t *frame, size_t frame_length, const void *out,
                                          size_t out_length, uintptr_t more)
{
    const uintptr_t words = bpfhost_word_of(host, 0) | bpfhost_word_of(frame, frame_length) | bpfhost_word_of(out, out_length) | more;
    return words <= PTRDIFF_MAX && bpfhost_are_disjoint(out, out_length, host, sizeof(bpfhost_memory))
        && (frame_length == 0
            || (bpfhost_are_beside(frame, frame_length, host, sizeof(bpfhost_memory))
                && bpfhost_are_beside(frame, frame_length, out, out_length) && bpfhost_is_beside_lent(host, frame, frame_length)));
}

/* The proved function that copies a reply, with objects that were tested. */
static inline int bpfhost_copy(bpfhost *host, const uint8_t *frame, size_t frame_length, uint8_t *room, size_t room_length, size_t *written)
{
    int code;
    bpfhost_enter(host);
    code = (int)bpfhost_c_handle(host, frame, frame_length, room, room_length, written);
    bpfhost_leave(host);
    return code;
}

static inline BPFHOST_SELDOM int bpfhost_handle_by_pairs(bpfhost *host, const uint8_t *frame, size_t frame_length, void *room,
                                                         size_t room_length, size_t *written)
{
    /* gcc warns of a host that is null, as a constant, if the test is in another function */
    int code = host == NULL ? (int)BPFHOST_ERR_NULL : bpfhost_frame_code(host, frame, frame_length, room, room_length);
    if (code == BPFHOST_DONE)
        code = bpfhost_frame_code(host, frame, frame_length, written, sizeof *written);
    if (code == BPFHOST_DONE)
        code = bpfhost_pair_code(room, room_length, written, sizeof *written);
    if (code == BPFHOST_DONE)
        code = bpfhost_lent_code(host, frame, frame_length);
    return code == BPFHOST_DONE ? bpfhost_copy(host, frame, frame_length, (uint8_t *)room, room_length, written) : code;
}

/* Handles a frame of any length and content, which is what follows the length field in a stream, and leaves the reply, with its
 * length field, at the front of the room; `written` gets its length, 12 to BPFHOST_LONGEST_REPLY. ERR_BUFFER_TOO_SMALL,
 * ERR_NULL, ERR_LENGTH, ERR_OVERLAP, ERR_LENT: nothing is written, and no tenant's state has changed. */
static inline int bpfhost_handle(bpfhost *host, const void *frame, size_t frame_length, void *room, size_t room_length,
                                 size_t *written)
{
    const uint8_t *at = bpfhost_bytes_at(frame, frame_length);
    if (bpfhost_is_frame_right(host, at, frame_length, room, room_length, bpfhost_word_of(written, 0))
        && bpfhost_are_beside(at, frame_length, written, sizeof *written)
        && bpfhost_are_beside(host, sizeof(bpfhost_memory), written, sizeof *written)
        && bpfhost_are_beside(room, room_length, written, sizeof *written))
        return bpfhost_copy(host, at, frame_length, (uint8_t *)room, room_length, written);
    return bpfhost_handle_by_pairs(host, at, frame_length, room, room_length, written);
}

/* The proved function that lends a reply, with a frame that was tested. */
static inline int bpfhost_lend(bpfhost *host, const uint8_t *frame, size_t frame_length, bpfhost_bytes *reply)
{
    int code;
    bpfhost_enter(host);
    code = (int)bpfhost_c_handle_lent(host, frame, frame_length, reply);
    bpfhost_leave(host);
    return code;
}

/* Whether a refused call may empty its reply: it is there, and overlaps neither the host nor the frame. A frame that is
 * longer than any object might overlap anything. */
static inline bool bpfhost_may_empty(const bpfhost_bytes *reply, const bpfhost *host, const uint8_t *frame, size_t frame_length)
{
    return reply != NULL && frame_length <= PTRDIFF_MAX
        && (host == NULL || bpfhost_are_apart(reply, sizeof *reply, host, sizeof(bpfhost_memory)))
        && (frame == NULL || bpfhost_are_apart(reply, sizeof *reply, frame, frame_length));
}

static inline BPFHOST_SELDOM int bpfhost_handle_lent_by_pairs(bpfhost *host, const uint8_t *frame, size_t frame_length, bpfhost_bytes *reply)
{
    const bpfhost_bytes none = {bpfhost_bytes_at(NULL, 0), 0};
    int code = bpfhost_frame_code(host, frame, frame_length, reply, sizeof *reply);
    if (code == BPFHOST_DONE)
        code = bpfhost_lent_code(host, frame, frame_length);
    if (code == BPFHOST_DONE || bpfhost_may_empty(reply, host, frame, frame_length))
        *reply = none;
    return code == BPFHOST_DONE ? bpfhost_lend(host, frame, frame_length, reply) : code;
}

/* The same, but the reply is lent in the host's own buffer, until the next call on this host: nothing is
 * copied. ERR_NULL, ERR_LENGTH, ERR_OVERLAP, ERR_LENT: no tenant's state has changed, and `reply` has no bytes. But it is as
 * it was if the frame's length is above PTRDIFF_MAX, or if `reply` itself overlaps the host or the frame. */
static inline int bpfhost_handle_lent(bpfhost *host, const void *frame, size_t frame_length, bpfhost_bytes *reply)
{
    const bpfhost_bytes none = {bpfhost_bytes_at(NULL, 0), 0};
    const uint8_t *at = bpfhost_bytes_at(frame, frame_length);
    if (!bpfhost_is_frame_right(host, at, frame_length, reply, sizeof *reply, 0))
        return bpfhost_handle_lent_by_pairs(host, at, frame_length, reply);
    *reply = none;
    return bpfhost_lend(host, at, frame_length, reply);
}

/* The address of a context; of one with zeros for null. */
static inline const bpfhost_context *bpfhost_context_at(const bpfhost_context *context)
{
    static const bpfhost_context zeros = {0, 0, 0, 0, 0, 0, 0, 0, 0, 0};
    return context == NULL ? &zeros : context;
}

/* The words of a context in their order; zeros for a null context. ERR_NULL, ERR_OVERLAP: nothing is written. */
static inline int bpfhost_context_words(const bpfhost_context *context, uint32_t words[10])
{
    const bpfhost_context *c = bpfhost_context_at(context);
    int code = bpfhost_pair_code(c, sizeof *c, words, 10 * sizeof *words);
    if (code != BPFHOST_DONE)
        return code;
    words[0] = c->pkt_type;
    words[1] = c->mark;
    words[2] = c->queue_mapping;
    words[3] = c->protocol;
    words[4] = c->vlan_present;
    words[5] = c->vlan_tci;
    words[6] = c->vlan_proto;
    words[7] = c->priority;
    words[8] = c->ingress_ifindex;
    words[9] = c->ifindex;
    return BPFHOST_DONE;
}

/* Contexts of any version, one after another: their address, the bytes of each, and how many there are. */
typedef struct bpfhost_contexts {
    const void *at;
    size_t size, count;
} bpfhost_contexts;

/* What is wrong with contexts by themselves, or DONE. */
static inline int bpfhost_contexts_code(bpfhost_contexts contexts)
{
    if (contexts.size == 0 || contexts.size % sizeof(uint32_t) != 0)
        return BPFHOST_ERR_SIZE;
    return contexts.count > PTRDIFF_MAX / contexts.size ? BPFHOST_ERR_LENGTH : BPFHOST_DONE;
}

/* What is wrong with what a run of many packets reads, together with an object that it may write, or DONE. */
static inline int bpfhost_packets_code(const void *out, size_t out_length, bpfhost_contexts contexts, const uint8_t *bytes,
                                       size_t byte_count, const size_t *ends, size_t packets)
{
    int code = bpfhost_pair_code(out, out_length, contexts.at, contexts.count * contexts.size);
    if (code == BPFHOST_DONE)
        code = bpfhost_pair_code(out, out_length, bytes, byte_count);
    if (code == BPFHOST_DONE)
        code = bpfhost_pair_code(out, out_length, ends, packets * sizeof *ends);
    return code;
}

/* What is wrong with the objects that a run of many packets may write, or DONE. `ran` is null for a run without a bound, which does not
 * write it. */
static inline int bpfhost_written_code(const bpfhost *host, const uint32_t *results, size_t packets, const int32_t *status,
                                       const size_t *ran)
{
    int code = bpfhost_pair_code(host, sizeof(bpfhost_memory), results, packets * sizeof *results);
    if (code == BPFHOST_DONE)
        code = bpfhost_pair_code(host, sizeof(bpfhost_memory), status, sizeof *status);
    if (code == BPFHOST_DONE)
        code = bpfhost_pair_code(results, packets * sizeof *results, status, sizeof *status);
    if (code == BPFHOST_DONE && ran != NULL)
        code = bpfhost_pair_code(host, sizeof(bpfhost_memory), ran, sizeof *ran);
    if (code == BPFHOST_DONE && ran != NULL)
        code = bpfhost_pair_code(results, packets * sizeof *results, ran, sizeof *ran);
    if (code == BPFHOST_DONE && ran != NULL)
        code = bpfhost_pair_code(status, sizeof *status, ran, sizeof *ran);
    return code;
}

/* What is wrong with the objects of a run of many packets, or DONE. */
static inline int bpfhost_run_code(const bpfhost *host, bpfhost_contexts contexts, const uint8_t *bytes, size_t byte_count,
                                   const size_t *ends, size_t packets, const uint32_t *results, const int32_t *status, const size_t *ran)
{
    int code = packets > PTRDIFF_MAX / sizeof *ends ? (int)BPFHOST_ERR_LENGTH : bpfhost_contexts_code(contexts);
    if (code == BPFHOST_DONE)
        code = bpfhost_packets_code(host, sizeof(bpfhost_memory), contexts, bytes, byte_count, ends, packets);
    if (code == BPFHOST_DONE)
        code = bpfhost_packets_code(results, packets * sizeof *results, contexts, bytes, byte_count, ends, packets);
    if (code == BPFHOST_DONE)
        code = bpfhost_packets_code(status, sizeof *status, contexts, bytes, byte_count, ends, packets);
    if (code == BPFHOST_DONE && ran != NULL)
        code = bpfhost_packets_code(ran, sizeof *ran, contexts, bytes, byte_count, ends, packets);
    if (code == BPFHOST_DONE)
        code = bpfhost_written_code(host, results, packets, status, ran);
    return code == BPFHOST_DONE ? bpfhost_lent_code(host, bytes, byte_count) : code;
}

/* The proved run of many packets, with contexts that were tested. */
static inline int bpfhost_run_given(bpfhost *host, uint16_t tenant, uint32_t fd, uint64_t bound, bpfhost_contexts contexts,
                                    const uint8_t *bytes, size_t byte_count, const size_t *ends, size_t packets, uint32_t *results,
                                    int32_t *status, size_t *ran)
{
    size_t words = contexts.size / sizeof(uint32_t);
    int code;
    bpfhost_enter(host);
    code = (int)bpfhost_c_run_packets(host, tenant, fd, bound, (const uint32_t *)contexts.at, contexts.count * words, words, bytes,
                                      byte_count, ends, packets, results, packets, status, ran);
    bpfhost_leave(host);
    return code;
}

/* Whether what a run of many packets reads ends before an object that it may write, or begins after it. */
static inline bool bpfhost_are_packets_beside(const void *out, size_t out_length, bpfhost_contexts contexts, const uint8_t *bytes,
                                              size_t byte_count, const size_t *ends, size_t packets)
{
    return bpfhost_are_beside(contexts.at, contexts.count * contexts.size, out, out_length)
        && bpfhost_are_beside(bytes, byte_count, out, out_length) && bpfhost_are_beside(out, out_length, ends, packets * sizeof *ends);
}

/* Whether the objects that such a run may write lie one after another in any order. `ran` is null if there is no such object. */
static inline bool bpfhost_are_written_beside(const bpfhost *host, const uint32_t *results, size_t packets, const int32_t *status,
                                              const size_t *ran)
{
    return bpfhost_are_beside(host, sizeof(bpfhost_memory), results, packets * sizeof *results)
        && bpfhost_are_beside(host, sizeof(bpfhost_memory), status, sizeof *status)
        && bpfhost_are_beside(status, sizeof *status, results, packets * sizeof *results)
        && (ran == NULL
            || (bpfhost_are_beside(host, sizeof(bpfhost_memory), ran, sizeof *ran) && bpfhost_are_beside(status, sizeof *status, ran, sizeof *ran)
                && bpfhost_are_beside(ran, sizeof *ran, results, packets * sizeof *results)));
}

/* As bpfhost_is_frame_right, of a run of many packets. No context of more than 64 bytes is seen to be right, nor are more contexts or packets than
 * have 128 bytes each. */
static inline BPFHOST_BY_FORCE bool bpfhost_is_run_right(const bpfhost *host, bpfhost_contexts contexts, const uint8_t *bytes, size_t byte_count,
                                                         const size_t *ends, size_t packets, const uint32_t *results, const int32_t *status,
                                                         const size_t *ran)
{
    const uintptr_t words = bpfhost_word_of(host, 0) | bpfhost_word_of(contexts.at, 0) | bpfhost_word_of(bytes, byte_count)
                            | bpfhost_word_of(ends, 0) | bpfhost_word_of(results, 0) | bpfhost_word_of(status, 0)
                            | (ran == NULL ? 0 : bpfhost_word_of(ran, 0));
    return words <= PTRDIFF_MAX && contexts.size - 1 < 64 && contexts.size % sizeof(uint32_t) == 0
        && ((contexts.count - 1) | packets) <= PTRDIFF_MAX / 128
        && bpfhost_are_packets_beside(host, sizeof(bpfhost_memory), contexts, bytes, byte_count, ends, packets)
        && bpfhost_are_packets_beside(results, packets * sizeof *results, contexts, bytes, byte_count, ends, packets)
        && bpfhost_are_packets_beside(status, sizeof *status, contexts, bytes, byte_count, ends, packets)
        && (ran == NULL || bpfhost_are_packets_beside(ran, sizeof *ran, contexts, bytes, byte_count, ends, packets))
        && bpfhost_are_written_beside(host, results, packets, status, ran) && bpfhost_is_beside_lent(host, bytes, byte_count);
}

static inline BPFHOST_SELDOM int bpfhost_run_by_pairs(bpfhost *host, uint16_t tenant, uint32_t fd, bpfhost_contexts contexts, const uint8_t *bytes,
                                                      size_t byte_count, const size_t *ends, size_t packets, uint64_t bound, uint32_t *results,
                                                      int32_t *status, size_t *ran)
{
    size_t unused = 0;
    int code = bpfhost_run_code(host, contexts, bytes, byte_count, ends, packets, results, status, ran);
    if (code == BPFHOST_DONE)
        code = bpfhost_run_given(host, tenant, fd, bound, contexts, bytes, byte_count, ends, packets, results, status, ran == NULL ? &unused : ran);
    return code;
}

/* What bpfhost_run_packets_sized and bpfhost_run_bounded_sized do: the former without a bound, and with null for `ran`, which is then not
 * written. */
static inline BPFHOST_BY_FORCE int bpfhost_run_up_to(bpfhost *host, uint16_t tenant, uint32_t fd, const void *contexts, size_t context_size,
                                                     size_t context_count, const void *bytes, size_t byte_count, const size_t *ends,
                                                     size_t packets, uint64_t bound, uint32_t *results, int32_t *status, size_t *ran)
{
    static const size_t no_ends[1] = {0};
    uint32_t no_results[1]; /* nobody reads or writes it */
    const bpfhost_contexts none = {bpfhost_context_at(NULL), sizeof(bpfhost_context), 1};
    const bpfhost_contexts some = {contexts, context_size, context_count};
    const bpfhost_contexts given = context_count == 0 ? none : some;
    const uint8_t *at = bpfhost_bytes_at(bytes, byte_count);
    const size_t *stops = packets == 0 ? no_ends : ends;
    uint32_t *room = packets == 0 ? no_results : results;
    size_t unused = 0;
    if (bpfhost_is_run_right(host, given, at, byte_count, stops, packets, room, status, ran))
        return bpfhost_run_given(host, tenant, fd, bound, given, at, byte_count, stops, packets, room, status, ran == NULL ? &unused : ran);
    return bpfhost_run_by_pairs(host, tenant, fd, given, at, byte_count, stops, packets, bound, room, status, ran);
}

/* Runs a program of a tenant on many packets, one after another, as PROG_TEST_RUN does on each, without frames and replies. The
 * packets lie one after another in `bytes`, and packet i ends before byte ends[i]. With one context it is that of all packets, with as
 * many contexts as packets each has its own, and with none, whose address may be null, all have zeros; the packet's length is always
 * its own. A context has `context_size` bytes, whole words: fewer than bpfhost_context has if the caller is older, more if it is newer.
 * `results` has room for as many results as packets, and `status` gets 0. What PROG_TEST_RUN would refuse is refused before
 * the first packet, and `status` gets its error: -1 for a tenant that is not served, -9 and -22 for a descriptor that is not open or
 * names a map, -7 for a packet of more than 65,536 bytes; -22 too for another number of contexts, and for ends that are out of order
 * or outside the bytes. Then no packet was run, and `results` is as it was. ERR_NULL, ERR_LENGTH, ERR_OVERLAP, ERR_LENT; ERR_SIZE for a
 * context of no whole words; ERR_TOO_BIG for one with a word that the library does not know and that is not 0; ERR_NO_MEMORY for contexts
 * of another size than the library's: nothing is written, and no tenant's state has changed. */
static inline BPFHOST_BY_FORCE int bpfhost_run_packets_sized(bpfhost *host, uint16_t tenant, uint32_t fd, const void *contexts,
                                                             size_t context_size, size_t context_count, const void *bytes, size_t byte_count,
                                                             const size_t *ends, size_t packets, uint32_t *results, int32_t *status)
{
    return bpfhost_run_up_to(host, tenant, fd, contexts, context_size, context_count, bytes, byte_count, ends, packets, 0, results,
                             status, NULL);
}

/* The same with contexts of this header. */
static inline BPFHOST_BY_FORCE int bpfhost_run_packets_with(bpfhost *host, uint16_t tenant, uint32_t fd, const bpfhost_context *contexts,
                                                            size_t context_count, const void *bytes, size_t byte_count, const size_t *ends,
                                                            size_t packets, uint32_t *results, int32_t *status)
{
    const bpfhost_context *given = context_count == 0 ? bpfhost_context_at(NULL) : contexts;
    return bpfhost_run_packets_sized(host, tenant, fd, given, sizeof *given, context_count == 0 ? 1 : context_count, bytes, byte_count, ends,
                                     packets, results, status);
}

/* The same with one context for all packets, which may be null for zeros. */
static inline BPFHOST_BY_FORCE int bpfhost_run_packets(bpfhost *host, uint16_t tenant, uint32_t fd, const bpfhost_context *context,
                                                       const void *bytes, size_t byte_count, const size_t *ends, size_t packets,
                                                       uint32_t *results, int32_t *status)
{
    return bpfhost_run_packets_with(host, tenant, fd, bpfhost_context_at(context), 1, bytes, byte_count, ends, packets, results,
                                    status);
}

/* The same as bpfhost_run_packets_sized, but no longer than the caller allows: the batch is made shorter to as many of its first
 * packets as can be run by `bound` instructions, if each takes the most instructions and calls of the program (bpfhost_cost), which no
 * run exceeds, and a call counts as BPFHOST_CALL_WEIGHT instructions more. One packet is run in any case, and 0 is no bound. `ran` gets
 * how many packets were run, 0 if the status is not 0. `results` has room for all packets; what follows the results of those that were
 * run stays as it is. Later packets are not looked at: the next call begins with them, and with their own contexts if each has one. The
 * codes are those of bpfhost_run_packets_sized, and `ran` is not written either if it is one of them. */
static inline int bpfhost_run_bounded_sized(bpfhost *host, uint16_t tenant, uint32_t fd, const void *contexts, size_t context_size,
                                            size_t context_count, const void *bytes, size_t byte_count, const size_t *ends,
                                            size_t packets, uint64_t bound, uint32_t *results, int32_t *status, size_t *ran)
{
    if (ran == NULL)
        return BPFHOST_ERR_NULL;
    return bpfhost_run_up_to(host, tenant, fd, contexts, context_size, context_count, bytes, byte_count, ends, packets, bound, results,
                             status, ran);
}

/* The same with contexts of this header. */
static inline int bpfhost_run_bounded_with(bpfhost *host, uint16_t tenant, uint32_t fd, const bpfhost_context *contexts,
                                           size_t context_count, const void *bytes, size_t byte_count, const size_t *ends,
                                           size_t packets, uint64_t bound, uint32_t *results, int32_t *status, size_t *ran)
{
    return bpfhost_run_bounded_sized(host, tenant, fd, contexts, sizeof *contexts, context_count, bytes, byte_count, ends, packets,
                                     bound, results, status, ran);
}

/* The same with one context for all packets, which may be null for zeros. */
static inline int bpfhost_run_bounded(bpfhost *host, uint16_t tenant, uint32_t fd, const bpfhost_context *context, const void *bytes,
                                      size_t byte_count, const size_t *ends, size_t packets, uint64_t bound, uint32_t *results,
                                      int32_t *status, size_t *ran)
{
    return bpfhost_run_bounded_with(host, tenant, fd, bpfhost_context_at(context), 1, bytes, byte_count, ends, packets, bound, results,
                                    status, ran);
}

/* The ends of the packets that bpfhost_run_scattered gathers for one call of the proved function. */
typedef struct bpfhost_gathered {
    size_t ends[64];
} bpfhost_gathered;

/* Copies packets one after another to the front of a buffer while they fit, and writes their ends. Returns how many it copied. */
static inline size_t bpfhost_gather(const bpfhost_packet *packets, size_t count, uint8_t *buffer, size_t buffer_length,
                                    bpfhost_gathered *gathered)
{
    const size_t most = sizeof gathered->ends / sizeof *gathered->ends;
    size_t copied = 0, end = 0;
    while (copied < count && copied < most && packets[copied].length <= buffer_length - end) {
        if (packets[copied].length != 0)
            memcpy(buffer + end, packets[copied].at, packets[copied].length);
        end += packets[copied].length;
        gathered->ends[copied++] = end;
    }
    return copied;
}

/* What is wrong with each packet by itself, or DONE. `span` gets bytes in which all of them lie. */
static inline int bpfhost_span_code(const bpfhost_packet *packets, size_t count, bpfhost_bytes *span)
{
    uintptr_t from = UINTPTR_MAX, to = 0;
    for (size_t i = 0; i < count; i++) {
        uintptr_t at = (uintptr_t)packets[i].at;
        size_t length = packets[i].length;
        if (length == 0)
            continue;
        if (at == 0)
            return BPFHOST_ERR_NULL;
        if (length > PTRDIFF_MAX)
            return BPFHOST_ERR_LENGTH;
        from = at < from ? at : from;
        if (length > UINTPTR_MAX - at)
            from = 0, to = UINTPTR_MAX; /* no object lies so; it counts as all bytes */
        to = at + length > to ? at + length : to;
    }
    span->at = to > from ? (const uint8_t *)from : bpfhost_bytes_at(NULL, 0);
    span->length = to > from ? to - from : 0;
    return BPFHOST_DONE;
}

/* What is wrong with packets that lie anywhere, within a span, and with their contexts, together with an object that the run may write, or
 * DONE. */
static inline int bpfhost_scattered_code(void *out, size_t out_length, const bpfhost_context *contexts, size_t context_count,
                                         const bpfhost_packet *packets, size_t count, bpfhost_bytes span)
{
    int code = bpfhost_pair_code(out, out_length, contexts, context_count * sizeof *contexts);
    if (code == BPFHOST_DONE)
        code = bpfhost_pair_code(out, out_length, packets, count * sizeof *packets);
    if (bpfhost_are_apart(out, out_length, span.at, span.length))
        return code;
    for (size_t i = 0; i < count && code == BPFHOST_DONE; i++)
        code = bpfhost_pair_code(out, out_length, bpfhost_bytes_at(packets[i].at, packets[i].length), packets[i].length);
    return code;
}

/* Whether what such a run reads ends before an object that it may write, or begins after it. */
static inline bool bpfhost_are_scattered_beside(const void *out, size_t out_length, const bpfhost_context *contexts, size_t context_count,
                                                const bpfhost_packet *packets, size_t count, bpfhost_bytes span)
{
    return bpfhost_are_beside(contexts, context_count * sizeof *contexts, out, out_length)
        && bpfhost_are_beside(span.at, span.length, out, out_length) && bpfhost_are_beside(out, out_length, packets, count * sizeof *packets);
}

/* As bpfhost_is_run_right, of such a run, if there are not more contexts and packets than an object has. */
static inline bool bpfhost_is_scattered_right(const bpfhost *host, const bpfhost_context *contexts, size_t context_count,
                                              const bpfhost_packet *packets, size_t count, bpfhost_bytes span, const uint8_t *buffer,
                                              size_t buffer_length, const uint32_t *results, const int32_t *status, const size_t *ran)
{
    const uintptr_t words = bpfhost_word_of(host, 0) | bpfhost_word_of(contexts, context_count * sizeof *contexts)
                            | bpfhost_word_of(packets, count * sizeof *packets) | bpfhost_word_of(span.at, span.length)
                            | bpfhost_word_of(buffer, buffer_length) | bpfhost_word_of(results, 0) | bpfhost_word_of(status, 0)
                            | (ran == NULL ? 0 : bpfhost_word_of(ran, 0));
    return words <= PTRDIFF_MAX && bpfhost_are_scattered_beside(host, sizeof(bpfhost_memory), contexts, context_count, packets, count, span)
        && bpfhost_are_scattered_beside(buffer, buffer_length, contexts, context_count, packets, count, span)
        && bpfhost_are_scattered_beside(results, count * sizeof *results, contexts, context_count, packets, count, span)
        && bpfhost_are_scattered_beside(status, sizeof *status, contexts, context_count, packets, count, span)
        && (ran == NULL || bpfhost_are_scattered_beside(ran, sizeof *ran, contexts, context_count, packets, count, span))
        && bpfhost_are_beside(buffer, buffer_length, host, sizeof(bpfhost_memory))
        && bpfhost_are_beside(buffer, buffer_length, results, count * sizeof *results)
        && bpfhost_are_beside(buffer, buffer_length, status, sizeof *status)
        && (ran == NULL || bpfhost_are_beside(buffer, buffer_length, ran, sizeof *ran))
        && bpfhost_are_written_beside(host, results, count, status, ran) && bpfhost_is_beside_lent(host, span.at, span.length);
}

/* What is wrong with the objects of such a run, whose packets lie within a span, or DONE. */
static inline BPFHOST_SELDOM int bpfhost_scattered_by_pairs(bpfhost *host, const bpfhost_context *contexts, size_t context_count,
                                                            const bpfhost_packet *packets, size_t count, bpfhost_bytes span, uint8_t *buffer,
                                                            size_t buffer_length, uint32_t *results, int32_t *status, size_t *ran)
{
    size_t results_size = count * sizeof *results;
    int code = bpfhost_written_code(host, results, count, status, ran);
    if (code == BPFHOST_DONE)
        code = bpfhost_pair_code(host, sizeof(bpfhost_memory), buffer, buffer_length);
    if (code == BPFHOST_DONE)
        code = bpfhost_pair_code(results, results_size, buffer, buffer_length);
    if (code == BPFHOST_DONE)
        code = bpfhost_pair_code(status, sizeof *status, buffer, buffer_length);
    if (code == BPFHOST_DONE && ran != NULL)
        code = bpfhost_pair_code(ran, sizeof *ran, buffer, buffer_length);
    if (code == BPFHOST_DONE)
        code = bpfhost_scattered_code(host, sizeof(bpfhost_memory), contexts, context_count, packets, count, span);
    if (code == BPFHOST_DONE)
        code = bpfhost_scattered_code(results, results_size, contexts, context_count, packets, count, span);
    if (code == BPFHOST_DONE)
        code = bpfhost_scattered_code(status, sizeof *status, contexts, context_count, packets, count, span);
    if (code == BPFHOST_DONE && ran != NULL)
        code = bpfhost_scattered_code(ran, sizeof *ran, contexts, context_count, packets, count, span);
    if (code == BPFHOST_DONE)
        code = bpfhost_scattered_code(buffer, buffer_length, contexts, context_count, packets, count, span);
    if (code == BPFHOST_DONE && bpfhost_lent_code(host, span.at, span.length) == BPFHOST_DONE)
        return code;
    for (size_t i = 0; i < count && code == BPFHOST_DONE; i++)
        code = bpfhost_lent_code(host, bpfhost_bytes_at(packets[i].at, packets[i].length), packets[i].length);
    return code;
}

/* The same, of packets anywhere. */
static inline int bpfhost_scattered_run_code(bpfhost *host, const bpfhost_context *contexts, size_t context_count,
                                             const bpfhost_packet *packets, size_t count, uint8_t *buffer, size_t buffer_length,
                                             uint32_t *results, int32_t *status, size_t *ran)
{
    bpfhost_bytes span;
    int code;
    if (count > PTRDIFF_MAX / sizeof *packets || context_count > PTRDIFF_MAX / sizeof *contexts)
        return BPFHOST_ERR_LENGTH;
    code = packets == NULL ? BPFHOST_ERR_NULL : bpfhost_span_code(packets, count, &span);
    if (code == BPFHOST_DONE
        && !bpfhost_is_scattered_right(host, contexts, context_count, packets, count, span, buffer, buffer_length, results, status, ran))
        code = bpfhost_scattered_by_pairs(host, contexts, context_count, packets, count, span, buffer, buffer_length, results, status, ran);
    return code;
}

/* The status of such a run by the number of contexts and the lengths of packets: 0, or their error. */
static inline int32_t bpfhost_scattered_status(size_t context_count, const bpfhost_packet *packets, size_t count)
{
    if (context_count != 1 && context_count != count)
        return -22; /* EINVAL */
    for (size_t i = 0; i < count; i++)
        if (packets[i].length > BPFHOST_LONGEST_PACKET)
            return -7; /* E2BIG */
    return 0;
}

/* Runs packets of a batch that lie anywhere, from the first one on: as many as fit into the buffer together, or one in its place. It
 * returns the code of the proved function, and `done` gets how many packets it ran. */
static inline int bpfhost_run_some(bpfhost *host, uint16_t tenant, uint32_t fd, const bpfhost_context *contexts, bool is_shared,
                                   const bpfhost_packet *packets, size_t count, uint8_t *buffer, size_t buffer_length,
                                   uint32_t *results, int32_t *status, size_t *done)
{
    bpfhost_gathered gathered;
    size_t many = bpfhost_gather(packets, count, buffer, buffer_length, &gathered);
    const uint8_t *at = many == 0 ? (const uint8_t *)packets->at : buffer;
    if (many == 0) {
        many = 1;
        gathered.ends[0] = packets->length;
    }
    const bpfhost_contexts given = {contexts, sizeof *contexts, is_shared ? 1 : many};
    return bpfhost_run_given(host, tenant, fd, 0, given, at, gathered.ends[many - 1], gathered.ends, many, results, status, done);
}

/* What bpfhost_run_scattered does, and bpfhost_run_bounded_scattered on the packets that its bound allows; for the former `ran` is null, and
 * not written. */
static inline int bpfhost_run_anywhere(bpfhost *host, uint16_t tenant, uint32_t fd, const bpfhost_context *contexts, size_t context_count,
                                       const bpfhost_packet *packets, size_t count, void *buffer, size_t buffer_length, uint32_t *results,
                                       int32_t *status, size_t *ran)
{
    static const bpfhost_packet no_packets[1] = {{NULL, 0}};
    static const size_t no_ends[1] = {0};
    uint8_t no_bytes[1] = {0};
    uint32_t no_results[1] = {0};
    const bpfhost_context *c = context_count == 0 ? bpfhost_context_at(NULL) : contexts;
    const bpfhost_packet *p = count == 0 ? no_packets : packets;
    uint8_t *room = buffer_length == 0 ? no_bytes : (uint8_t *)buffer;
    uint32_t *out = count == 0 ? no_results : results;
    size_t given = context_count == 0 ? 1 : context_count, done = 0, some = 0;
    const bpfhost_contexts first = {c, sizeof *c, 1}, all = {c, sizeof *c, given};
    int32_t wrong, told = 0;
    int code = bpfhost_scattered_run_code(host, c, given, p, count, room, buffer_length, out, status, ran);
    if (code != BPFHOST_DONE)
        return code;
    wrong = bpfhost_scattered_status(given, p, count);
    /* A library of another version may not know a word of a context: it reads all of them before the first packet. */
    if (given != 1 && bpfhost_library_version() != BPFHOST_VERSION_NUMBER)
        code = bpfhost_run_given(host, tenant, fd, 0, all, no_bytes, 0, no_ends, 0, no_results, &told, &some);
    told = 0;
    /* The errors of no packets, those of the tenant and the descriptor, come before those of packets. */
    if (code == BPFHOST_DONE && (wrong != 0 || count == 0))
        code = bpfhost_run_given(host, tenant, fd, 0, first, no_bytes, 0, no_ends, 0, no_results, &told, &some);
    told = told == 0 ? wrong : told;
    while (code == BPFHOST_DONE && told == 0 && done < count) {
        const bpfhost_context *own = given == 1 ? c : c + done;
        code = bpfhost_run_some(host, tenant, fd, own, given == 1, p + done, count - done, room, buffer_length, out + done, &told, &some);
        done += some;
    }
    if (code == BPFHOST_DONE)
        *status = told;
    if (code == BPFHOST_DONE && ran != NULL)
        *ran = told == 0 ? done : 0;
    return code;
}

/* Runs a program of a tenant on packets that lie anywhere, as recvmmsg, the rings of packet(7) and DPDK's mbufs have them. It does what
 * bpfhost_run_packets_with does on these packets, and what is refused is refused before the first packet. Packets are copied one after
 * another to `buffer`, at most 64 at a time and as many as fit, and are run by one call of the proved function; then the next ones. A
 * packet that is longer than the buffer is not copied, and is run by a call of its own. So the buffer may have any length, or none at all;
 * room for 64 usual packets serves best. It holds any bytes afterwards. This loop is tested, not proved; what it calls is proved.
 * Packets may overlap one another. ERR_NO_HOST, ERR_NULL, ERR_LENGTH, ERR_OVERLAP, ERR_LENT: nothing is written, and no tenant's state
 * has changed. */
static inline int bpfhost_run_scattered(bpfhost *host, uint16_t tenant, uint32_t fd, const bpfhost_context *contexts,
                                        size_t context_count, const bpfhost_packet *packets, size_t count, void *buffer,
                                        size_t buffer_length, uint32_t *results, int32_t *status)
{
    return bpfhost_run_anywhere(host, tenant, fd, contexts, context_count, packets, count, buffer, buffer_length, results, status, NULL);
}

/* Lowers a number of packets to what a bound allows the program at a descriptor, as the proved run of many packets does: as many as can be
 * run by `bound` instructions, if each takes the most instructions and calls of the program, and a call counts as BPFHOST_CALL_WEIGHT more,
 * but one at least. 0 is no bound; what is no program allows all, and is refused when it is run. Returns the code of the proved function. */
static inline int bpfhost_allowed_packets(bpfhost *host, uint16_t tenant, uint32_t fd, uint64_t bound, size_t *packets)
{
    bpfhost_cost cost = {0, 0};
    uint64_t weight;
    int code = BPFHOST_DONE;
    if (bound == 0)
        return code;
    bpfhost_enter(host);
    code = (int)bpfhost_c_program_cost(host, tenant, fd, &cost);
    bpfhost_leave(host);
    weight = cost.instructions + (uint64_t)BPFHOST_CALL_WEIGHT * cost.calls;
    if (code == BPFHOST_DONE && weight != 0 && *packets > 1 && bound / weight < *packets)
        *packets = bound < weight ? 1 : (size_t)(bound / weight);
    return code;
}

/* The same as bpfhost_run_scattered, but no longer than the caller allows: with the bound, the number of packets and the rest of the results
 * of bpfhost_run_bounded_sized. Packets after those that the bound allows are not looked at: a caller with many packets passes all that are
 * left to each call. The cost of the program is asked of the library, so a call takes some instructions more than one without a bound. */
static inline int bpfhost_run_bounded_scattered(bpfhost *host, uint16_t tenant, uint32_t fd, const bpfhost_context *contexts,
                                                size_t context_count, const bpfhost_packet *packets, size_t count, void *buffer,
                                                size_t buffer_length, uint64_t bound, uint32_t *results, int32_t *status, size_t *ran)
{
    size_t allowed = count, given = context_count;
    int code = BPFHOST_DONE;
    if (host == NULL || ran == NULL)
        return BPFHOST_ERR_NULL;
    if (count > PTRDIFF_MAX / sizeof *packets || context_count > PTRDIFF_MAX / sizeof *contexts)
        return BPFHOST_ERR_LENGTH;
    /* What has neither one context nor one for each packet is refused as a whole. */
    if (context_count <= 1 || context_count == count)
        code = bpfhost_allowed_packets(host, tenant, fd, bound, &allowed);
    if (context_count > 1 && context_count == count)
        given = allowed;
    if (code != BPFHOST_DONE)
        return code;
    return bpfhost_run_anywhere(host, tenant, fd, contexts, given, packets, allowed, buffer, buffer_length, results, status, ran);
}

/* Saves one part of a tenant: `frames` gets the frames of this part, each with its length field before it as in a stream, lent
 * until the next call on this host. Parts are numbered from 0, and a tenant has 2 to 129 of them: the first opens a program at each
 * descriptor; for each map and program, in the order in which they were made, one part creates it, and the parts after it put the keys of
 * the map, at most 1,024 each; the last closes what is not open. A new tenant of this number, of any host, that is given the frames of
 * all parts in their order (bpfhost_restore, or bpfhost_restore_as for another number) then replies to each frame as the saved tenant
 * does. Until the last part is taken, the tenant must not be given a frame or packets; other tenants may be. A part has at most
 * BPFHOST_LONGEST_PART bytes, which the host keeps until the next call of bpfhost_save_part or bpfhost_save on it. ERR_NO_PART: there are
 * no more parts, or the tenant is not served. ERR_NO_MEMORY, ERR_NO_PART, ERR_NULL, ERR_OVERLAP: nothing is written. No tenant's state
 * changes. */
static inline int bpfhost_save_part(bpfhost *host, uint16_t tenant, size_t part, bpfhost_bytes *frames)
{
    bpfhost_bytes *found;
    int code = bpfhost_pair_code(host, sizeof(bpfhost_memory), frames, sizeof *frames);
    if (code != BPFHOST_DONE)
        return code;
    found = &bpfhost_memory_of(host)->part; /* after the handle, which is all that the library has of this memory */
    found->at = bpfhost_bytes_at(NULL, 0); /* the part before is freed in any case */
    found->length = 0;
    bpfhost_enter(host);
    code = (int)bpfhost_c_save(host, tenant, part, found);
    bpfhost_leave(host);
    if (code == BPFHOST_DONE) {
        frames->at = bpfhost_bytes_at(found->at, found->length);
        frames->length = found->length;
    } else {
        found->at = NULL;
    }
    return code;
}

/* Takes the frames of one part of a tenant: writes them to a file, say. They are lent: once it has used them, it may serve other tenants
 * of the host. A part may be empty, as the last one is if all descriptors are open: then `length` is 0, and `frames` is not null.
 * `context` is that of bpfhost_save. false stops the save. */
typedef bool bpfhost_sink(void *context, const uint8_t *frames, size_t length);

/* Saves a tenant: gives its parts (bpfhost_save_part) to the sink, one after another. What the sink is given, in this order, restores the
 * tenant. ERR_NO_PART: the tenant is not served. ERR_STOPPED: the sink returned false. ERR_NO_MEMORY: the sink may have been given
 * some parts. ERR_NULL: the host or the sink is null. No tenant's state changes, except those that the sink serves. */
static inline int bpfhost_save(bpfhost *host, uint16_t tenant, bpfhost_sink *sink, void *context)
{
    bpfhost_bytes frames;
    size_t part = 0;
    int code = sink == NULL ? BPFHOST_ERR_NULL : bpfhost_save_part(host, tenant, part, &frames);
    while (code == BPFHOST_DONE) {
        part++;
        code = sink(context, frames.at, frames.length) ? bpfhost_save_part(host, tenant, part, &frames) : BPFHOST_ERR_STOPPED;
    }
    return code == BPFHOST_ERR_NO_PART && part > 0 ? BPFHOST_DONE : code;
}

/* Whether memory was ever refused to a tenant: then its replies may differ from those of a host with only this tenant. False for a
 * number that is not served. ERR_NULL, ERR_OVERLAP: nothing is written. */
static inline int bpfhost_memory_refused(bpfhost *host, uint16_t tenant, bool *refused)
{
    bool found = false;
    int code = bpfhost_pair_code(host, sizeof(bpfhost_memory), refused, sizeof *refused);
    if (code != BPFHOST_DONE)
        return code;
    bpfhost_enter(host);
    code = (int)bpfhost_c_memory_refused(host, tenant, &found);
    bpfhost_leave(host);
    if (code == BPFHOST_DONE)
        *refused = found;
    return code;
}

/* Frees a host. Null is ignored. */
static inline void bpfhost_free(bpfhost *host)
{
    if (host == NULL)
        return;
    bpfhost_enter(host);
    bpfhost_c_free(host);
    bpfhost_give_back(host);
}

/* ---- what a tenant has. ERR_NULL, ERR_OVERLAP: nothing is written. No tenant's state changes. */

/* The counts of a tenant; all are 0 for a number that is not served. */
static inline int bpfhost_counts_of(bpfhost *host, uint16_t tenant, bpfhost_counts *counts)
{
    int code = bpfhost_pair_code(host, sizeof(bpfhost_memory), counts, sizeof *counts);
    if (code != BPFHOST_DONE)
        return code;
    bpfhost_enter(host);
    code = (int)bpfhost_c_status(host, tenant, counts);
    bpfhost_leave(host);
    return code;
}

/* The counts, as bpfhost_counts has them, and what the allocator of the C library holds. */
enum bpfhost_which {
    BPFHOST_STATUS_MAPS,
    BPFHOST_STATUS_ENTRIES,
    BPFHOST_STATUS_VALUE_BYTES,
    BPFHOST_STATUS_PROGRAMS,
    BPFHOST_STATUS_DESCRIPTORS,
    BPFHOST_STATUS_MEMORY_REFUSED, /* 0 or 1 */
    BPFHOST_STATUS_MEMORY_HELD     /* bytes that malloc has given to the whole process (mallinfo2 of glibc 2.33), of whatever tenant and host */
};

/* The bytes that malloc has given to this process and were not freed. false if the C library does not say. */
static inline bool bpfhost_memory_held(uint64_t *bytes)
{
#ifdef BPFHOST_HAS_MALLINFO2
    struct mallinfo2 all = mallinfo2();
    *bytes = (uint64_t)all.uordblks + all.hblkhd;
    return true;
#else
    (void)bytes;
    return false;
#endif
}

/* One count of a tenant. ERR_WHICH: there is no count of this number, or the C library does not say what memory is held. */
static inline int bpfhost_status(bpfhost *host, uint16_t tenant, enum bpfhost_which which, uint64_t *out)
{
    bpfhost_counts counts;
    uint64_t held = 0;
    int code = bpfhost_pair_code(host, sizeof(bpfhost_memory), out, sizeof *out);
    if (code == BPFHOST_DONE)
        code = bpfhost_counts_of(host, tenant, &counts);
    if (code != BPFHOST_DONE)
        return code;
    switch ((int)which) {
    case BPFHOST_STATUS_MAPS: held = counts.maps; break;
    case BPFHOST_STATUS_ENTRIES: held = counts.entries; break;
    case BPFHOST_STATUS_VALUE_BYTES: held = counts.value_bytes; break;
    case BPFHOST_STATUS_PROGRAMS: held = counts.programs; break;
    case BPFHOST_STATUS_DESCRIPTORS: held = counts.descriptors; break;
    case BPFHOST_STATUS_MEMORY_REFUSED: held = counts.memory_refused; break;
    case BPFHOST_STATUS_MEMORY_HELD:
        if (bpfhost_memory_held(&held))
            break;
        return BPFHOST_ERR_WHICH;
    default: return BPFHOST_ERR_WHICH;
    }
    *out = held;
    return BPFHOST_DONE;
}

/* What a descriptor of a tenant names: a map with its shape, a program, or nothing. */
static inline int bpfhost_describe(bpfhost *host, uint16_t tenant, uint32_t fd, bpfhost_described *described)
{
    int code = bpfhost_pair_code(host, sizeof(bpfhost_memory), described, sizeof *described);
    if (code != BPFHOST_DONE)
        return code;
    bpfhost_enter(host);
    code = (int)bpfhost_c_describe(host, tenant, fd, described);
    bpfhost_leave(host);
    return code;
}

/* What the program that a descriptor of a tenant names costs; both numbers are 0 if it names none, and for a number that is not served. */
static inline int bpfhost_program_cost(bpfhost *host, uint16_t tenant, uint32_t fd, bpfhost_cost *cost)
{
    int code = bpfhost_pair_code(host, sizeof(bpfhost_memory), cost, sizeof *cost);
    if (code != BPFHOST_DONE)
        return code;
    bpfhost_enter(host);
    code = (int)bpfhost_c_program_cost(host, tenant, fd, cost);
    bpfhost_leave(host);
    return code;
}

/* An open descriptor, what it names, and what that costs, which is 0 for a map. */
typedef struct bpfhost_listed {
    uint32_t fd;
    bpfhost_described is;
    bpfhost_cost cost;
} bpfhost_listed;

/* The open descriptors of a tenant in their order: as many as fit into `room` entries. `count` gets how many are open, at most
 * BPFHOST_MOST_DESCRIPTORS. ERR_LENGTH too. */
static inline int bpfhost_list(bpfhost *host, uint16_t tenant, bpfhost_listed *entries, size_t room, size_t *count)
{
    bpfhost_listed none[1] = {{0, {0, 0, 0, 0, 0, 0, 0}, {0, 0}}}, *at = room == 0 ? none : entries;
    const size_t size = room > PTRDIFF_MAX / sizeof *at ? SIZE_MAX : room * sizeof *at;
    size_t found = 0;
    int code = bpfhost_pair_code(host, sizeof(bpfhost_memory), at, size);
    if (code == BPFHOST_DONE)
        code = bpfhost_pair_code(host, sizeof(bpfhost_memory), count, sizeof *count);
    if (code == BPFHOST_DONE)
        code = bpfhost_pair_code(at, size, count, sizeof *count);
    for (uint32_t i = 0; code == BPFHOST_DONE && i < BPFHOST_MOST_DESCRIPTORS; i++) {
        bpfhost_listed each = {BPFHOST_FIRST_DESCRIPTOR + i, {0, 0, 0, 0, 0, 0, 0}, {0, 0}};
        code = bpfhost_describe(host, tenant, each.fd, &each.is);
        if (code == BPFHOST_DONE && each.is.kind == BPFHOST_PROGRAM)
            code = bpfhost_program_cost(host, tenant, each.fd, &each.cost);
        if (code != BPFHOST_DONE || each.is.kind == BPFHOST_NOTHING)
            continue;
        if (found < room)
            at[found] = each;
        found++;
    }
    if (code == BPFHOST_DONE)
        *count = found;
    return code;
}

/* ---- the verifier's log */

/* A line for each instruction, with what is new before it or with all that is known; or a graph for Graphviz. */
enum bpfhost_style { BPFHOST_LOG_NEW = 0, BPFHOST_LOG_WHOLE = 1, BPFHOST_LOG_GRAPH = 2 };

/* Verifies the program of so many slots of 8 bytes with the tenant's open descriptors, as PROG_LOAD does, and loads nothing. `log` gets as
 * much of the text of verifier_log as fits into `size` bytes, ended by a zero byte; it may be null if `size` is 0. `logged` gets the length of
 * the whole text, without that byte, and the verdict. For slots that are no program the text is the line of their refusal. For a tenant that
 * is not served nothing is open. ERR_STYLE: there is no such style. ERR_NO_MEMORY, ERR_NULL, ERR_LENGTH, ERR_OVERLAP, ERR_LENT: nothing is
 * written. No tenant's state changes. */
static inline int bpfhost_verify_as(bpfhost *host, uint16_t tenant, const void *slots, size_t slot_count, enum bpfhost_style style, char *log,
                                    size_t size, bpfhost_logged *logged)
{
    uint8_t no_room[1] = {0}, *room = size == 0 ? no_room : (uint8_t *)log;
    const size_t length = slot_count > PTRDIFF_MAX / 8 ? SIZE_MAX : 8 * slot_count;
    const uint8_t *at = bpfhost_bytes_at(slots, length);
    int code = bpfhost_frame_code(host, at, length, room, size);
    if (code == BPFHOST_DONE)
        code = bpfhost_frame_code(host, at, length, logged, sizeof *logged);
    if (code == BPFHOST_DONE)
        code = bpfhost_pair_code(room, size, logged, sizeof *logged);
    if (code == BPFHOST_DONE)
        code = bpfhost_lent_code(host, at, length);
    if (code != BPFHOST_DONE)
        return code;
    bpfhost_enter(host);
    code = (int)bpfhost_c_verify(host, tenant, at, length, (uint32_t)style, room, size, logged);
    bpfhost_leave(host);
    return code;
}

/* The same with what is new before each instruction; `length` gets the length of the whole text. */
static inline int bpfhost_verify(bpfhost *host, uint16_t tenant, const void *slots, size_t slot_count, char *log, size_t size, size_t *length)
{
    bpfhost_logged logged = {0, false};
    const size_t slots_length = slot_count > PTRDIFF_MAX / 8 ? SIZE_MAX : 8 * slot_count;
    int code = bpfhost_frame_code(host, bpfhost_bytes_at(slots, slots_length), slots_length, length, sizeof *length);
    if (code == BPFHOST_DONE && size != 0)
        code = bpfhost_pair_code(log, size, length, sizeof *length);
    if (code == BPFHOST_DONE)
        code = bpfhost_verify_as(host, tenant, slots, slot_count, BPFHOST_LOG_NEW, log, size, &logged);
    if (code == BPFHOST_DONE)
        *length = logged.length;
    return code;
}

/* ---- frames. Each function writes a frame into a room and returns its length. If the room is too small, a pointer is null that
 * has bytes to give, a length is above PTRDIFF_MAX, or what it is given overlaps the room, it returns 0 and writes nothing. A number
 * of a tenant, a descriptor or a size need not be right: the host reports it in its reply. */

enum bpfhost_command {
    /* commands: written by tools/generate */
    BPFHOST_MAP_CREATE = 0,
    BPFHOST_MAP_LOOKUP = 1,
    BPFHOST_MAP_UPDATE = 2,
    BPFHOST_MAP_DELETE = 3,
    BPFHOST_MAP_NEXT_KEY = 4,
    BPFHOST_PROG_LOAD = 5,
    BPFHOST_PROG_TEST_RUN = 10,
    BPFHOST_CLOSE = 256
    /* end of commands */
};

/* types: written by tools/generate */
enum bpfhost_map_type { BPFHOST_HASH = 1, BPFHOST_ARRAY = 2 };
enum bpfhost_prog_type { BPFHOST_SOCKET_FILTER = 1 };
enum bpfhost_update_flags { BPFHOST_ANY = 0, BPFHOST_NOEXIST = 1, BPFHOST_EXIST = 2 };
/* end of types */

/* Numbers and bytes of frames and replies. These test nothing: there is room, and each `put` returns where it ends. A little-endian machine
 * has numbers as they are in frames: not every compiler makes one store of the stores of their bytes. */
#if defined __BYTE_ORDER__ && __BYTE_ORDER__ == __ORDER_LITTLE_ENDIAN__
#define BPFHOST_LITTLE_ENDIAN
#endif

static inline uint8_t *bpfhost_put16(uint8_t *at, uint16_t number)
{
    at[0] = (uint8_t)number;
    at[1] = (uint8_t)(number >> 8);
    return at + 2;
}

static inline uint8_t *bpfhost_put32(uint8_t *at, uint32_t number)
{
#ifdef BPFHOST_LITTLE_ENDIAN
    memcpy(at, &number, sizeof number);
    return at + sizeof number;
#else
    return bpfhost_put16(bpfhost_put16(at, (uint16_t)number), (uint16_t)(number >> 16));
#endif
}

static inline uint8_t *bpfhost_put64(uint8_t *at, uint64_t number)
{
#ifdef BPFHOST_LITTLE_ENDIAN
    memcpy(at, &number, sizeof number);
    return at + sizeof number;
#else
    return bpfhost_put32(bpfhost_put32(at, (uint32_t)number), (uint32_t)(number >> 32));
#endif
}

/* The head of a frame, and the number after it. */
static inline uint8_t *bpfhost_put_head(uint8_t *at, uint16_t tenant, enum bpfhost_command command, uint32_t number)
{
    return bpfhost_put32(bpfhost_put32(at, tenant | (uint32_t)command << 16), number);
}

static inline uint8_t *bpfhost_put_bytes(uint8_t *at, const void *bytes, size_t length)
{
    if (length != 0)
        memcpy(at, bytes, length);
    return at + length;
}

static inline uint16_t bpfhost_get16(const uint8_t *at)
{
    return (uint16_t)(at[0] | at[1] << 8);
}

static inline uint32_t bpfhost_get32(const uint8_t *at)
{
    return (uint32_t)bpfhost_get16(at) | (uint32_t)bpfhost_get16(at + 2) << 16;
}

/* The head of a frame and a first number, if a frame of `fixed` bytes and `more` after them fits; else null, and nothing is
 * written. */
static inline uint8_t *bpfhost_frame_begin(void *frame, size_t room, size_t fixed, size_t more, uint16_t tenant,
                                           enum bpfhost_command command, uint32_t first)
{
    if (frame == NULL || room > PTRDIFF_MAX || room < fixed || room - fixed < more)
        return NULL;
    return bpfhost_put_head((uint8_t *)frame, tenant, command, first);
}

/* MAP_CREATE: 24 bytes. The status of the reply is a new descriptor. `type` is BPFHOST_HASH or BPFHOST_ARRAY, `flags` 0. */
static inline size_t bpfhost_frame_map_create(void *frame, size_t room, uint16_t tenant, uint32_t type, uint32_t key_size,
                                              uint32_t value_size, uint32_t entries, uint32_t flags)
{
    uint8_t *at = bpfhost_frame_begin(frame, room, 24, 0, tenant, BPFHOST_MAP_CREATE, type);
    if (at == NULL)
        return 0;
    bpfhost_put32(bpfhost_put32(bpfhost_put32(bpfhost_put32(at, key_size), value_size), entries), flags);
    return 24;
}

/* Whether bytes may be copied into a room, if there is one and it is no longer than any object: there may be no bytes. */
static inline bool bpfhost_may_copy(const void *room, size_t room_length, const void *bytes, size_t length)
{
    if (length == 0)
        return true;
    if (room == NULL || bytes == NULL || (room_length | length) > PTRDIFF_MAX)
        return false;
    return ((uintptr_t)room | (uintptr_t)bytes) <= PTRDIFF_MAX ? bpfhost_are_disjoint(room, room_length, bytes, length)
                                                               : bpfhost_are_apart(room, room_length, bytes, length);
}

/* A frame of a descriptor and bytes: 8 and the bytes'. */
static inline size_t bpfhost_frame_of_key(void *frame, size_t room, uint16_t tenant, enum bpfhost_command command, uint32_t fd,
                                          const void *key, size_t key_size)
{
    uint8_t *at;
    if (!bpfhost_may_copy(frame, room, key, key_size))
        return 0;
    at = bpfhost_frame_begin(frame, room, 8, key_size, tenant, command, fd);
    if (at == NULL)
        return 0;
    bpfhost_put_bytes(at, key, key_size);
    return 8 + key_size;
}

/* MAP_LOOKUP_ELEM: 8 bytes and the key. The payload of the reply is the value. */
static inline size_t bpfhost_frame_map_lookup(void *frame, size_t room, uint16_t tenant, uint32_t fd, const void *key,
                                              size_t key_size)
{
    return bpfhost_frame_of_key(frame, room, tenant, BPFHOST_MAP_LOOKUP, fd, key, key_size);
}

/* MAP_DELETE_ELEM: 8 bytes and the key. */
static inline size_t bpfhost_frame_map_delete(void *frame, size_t room, uint16_t tenant, uint32_t fd, const void *key,
                                              size_t key_size)
{
    return bpfhost_frame_of_key(frame, room, tenant, BPFHOST_MAP_DELETE, fd, key, key_size);
}

/* MAP_GET_NEXT_KEY: 8 bytes and the key, which may be null and empty. The payload of the reply is the key that follows. */
static inline size_t bpfhost_frame_map_next_key(void *frame, size_t room, uint16_t tenant, uint32_t fd, const void *key,
                                                size_t key_size)
{
    return bpfhost_frame_of_key(frame, room, tenant, BPFHOST_MAP_NEXT_KEY, fd, key, key_size);
}

/* MAP_UPDATE_ELEM: 16 bytes, the key and the value. `flags` is one of bpfhost_update_flags. */
static inline size_t bpfhost_frame_map_update(void *frame, size_t room, uint16_t tenant, uint32_t fd, uint64_t flags,
                                              const void *key, size_t key_size, const void *value, size_t value_size)
{
    uint8_t *at;
    if (!bpfhost_may_copy(frame, room, key, key_size) || !bpfhost_may_copy(frame, room, value, value_size))
        return 0;
    at = bpfhost_frame_begin(frame, room, 16, key_size + value_size, tenant, BPFHOST_MAP_UPDATE, fd);
    if (at == NULL)
        return 0;
    bpfhost_put_bytes(bpfhost_put_bytes(bpfhost_put64(at, flags), key, key_size), value, value_size);
    return 16 + key_size + value_size;
}

/* PROG_LOAD: 8 bytes and 8 for each slot, in the bytes of RFC 9669 as a little-endian machine has them. The status of the reply is
 * a new descriptor, or the payload says the slot and the reason. `type` is BPFHOST_SOCKET_FILTER. */
static inline size_t bpfhost_frame_prog_load(void *frame, size_t room, uint16_t tenant, uint32_t type, const void *slots,
                                             size_t slot_count)
{
    if (slot_count > SIZE_MAX / 8)
        return 0;
    return bpfhost_frame_of_key(frame, room, tenant, BPFHOST_PROG_LOAD, type, slots, 8 * slot_count);
}

/* PROG_TEST_RUN without its packet: writes BPFHOST_TEST_RUN_HEAD bytes before a packet that is already in place after them, so
 * that it is not copied. The frame is these bytes and the packet. `context` may be null, for zeros. */
static inline size_t bpfhost_frame_test_run_head(void *head, size_t room, uint16_t tenant, uint32_t fd,
                                                 const bpfhost_context *context)
{
    const bpfhost_context *c = bpfhost_context_at(context);
    uint8_t *at;
    if (!bpfhost_may_copy(head, room, c, sizeof *c))
        return 0;
    at = bpfhost_frame_begin(head, room, BPFHOST_TEST_RUN_HEAD, 0, tenant, BPFHOST_PROG_TEST_RUN, fd);
    if (at == NULL)
        return 0;
#ifdef BPFHOST_LITTLE_ENDIAN
    memcpy(at, c, sizeof *c);
#else
    at = bpfhost_put32(bpfhost_put32(bpfhost_put32(at, c->pkt_type), c->mark), c->queue_mapping);
    at = bpfhost_put32(bpfhost_put32(bpfhost_put32(at, c->protocol), c->vlan_present), c->vlan_tci);
    at = bpfhost_put32(bpfhost_put32(bpfhost_put32(at, c->vlan_proto), c->priority), c->ingress_ifindex);
    bpfhost_put32(at, c->ifindex);
#endif
    return BPFHOST_TEST_RUN_HEAD;
}

/* PROG_TEST_RUN: BPFHOST_TEST_RUN_HEAD bytes and the packet, which is copied. The reply has the result. */
static inline size_t bpfhost_frame_prog_test_run(void *frame, size_t room, uint16_t tenant, uint32_t fd,
                                                 const bpfhost_context *context, const void *packet, size_t packet_length)
{
    if (!bpfhost_may_copy(frame, room, packet, packet_length) || room < BPFHOST_TEST_RUN_HEAD
        || room - BPFHOST_TEST_RUN_HEAD < packet_length || bpfhost_frame_test_run_head(frame, room, tenant, fd, context) == 0)
        return 0;
    bpfhost_put_bytes((uint8_t *)frame + BPFHOST_TEST_RUN_HEAD, packet, packet_length);
    return BPFHOST_TEST_RUN_HEAD + packet_length;
}

/* CLOSE: 8 bytes. */
static inline size_t bpfhost_frame_close(void *frame, size_t room, uint16_t tenant, uint32_t fd)
{
    return bpfhost_frame_of_key(frame, room, tenant, BPFHOST_CLOSE, fd, NULL, 0);
}

/* ---- replies */

/* A later version may have more fields after these: bpfhost_read_reply_sized and bpfhost_ask_sized take the size. */
typedef struct bpfhost_reply {
    uint16_t tenant;
    uint16_t command;
    int32_t status;         /* a new descriptor, 0, or a negative error number of bpf(2) */
    const uint8_t *payload; /* inside the bytes that were read */
    size_t payload_length;  /* 0 to BPFHOST_LONGEST_PAYLOAD */
    uint32_t result;        /* of a PROG_TEST_RUN with status 0; else 0 */
    uint32_t slot;          /* of a PROG_LOAD that is refused with a payload, the slot and the reason; else 0 */
    uint16_t reason;
} bpfhost_reply;

/* Reads the fields of one whole reply. It tests nothing. */
static inline void bpfhost_read_fields(const uint8_t *at, size_t length, bpfhost_reply *reply)
{
    reply->tenant = bpfhost_get16(at + 4);
    reply->command = bpfhost_get16(at + 6);
    reply->status = (int32_t)bpfhost_get32(at + 8);
    reply->payload = at + 12;
    reply->payload_length = length - 12;
    reply->result = 0;
    reply->slot = 0;
    reply->reason = 0;
    if (reply->command == BPFHOST_PROG_TEST_RUN && reply->status == 0 && reply->payload_length == 4)
        reply->result = bpfhost_get32(reply->payload);
    if (reply->command == BPFHOST_PROG_LOAD && reply->status < 0 && reply->payload_length == 6) {
        reply->slot = bpfhost_get32(reply->payload);
        reply->reason = bpfhost_get16(reply->payload + 4);
    }
}

/* Reads one whole reply. ERR_NULL, ERR_LENGTH, ERR_OVERLAP, ERR_NO_REPLY: nothing is written. */
static inline int bpfhost_read_reply(const void *bytes, size_t length, bpfhost_reply *reply)
{
    const uint8_t *at = (const uint8_t *)bytes;
    int code = bpfhost_pair_code(bytes, length, reply, sizeof *reply);
    if (code != BPFHOST_DONE)
        return code;
    if (length < 12 || length > BPFHOST_LONGEST_REPLY || bpfhost_get32(at) != length - 4)
        return BPFHOST_ERR_NO_REPLY;
    bpfhost_read_fields(at, length, reply);
    return BPFHOST_DONE;
}

/* The same for a reply of `size` bytes, that of another version of this header: it gets as many of its bytes as this header knows, and
 * zeros after them. ERR_SIZE: it has no byte. */
static inline int bpfhost_read_reply_sized(const void *bytes, size_t length, void *reply, size_t size)
{
    bpfhost_reply known;
    int code = bpfhost_pair_code(bytes, length, reply, size);
    if (code == BPFHOST_DONE)
        code = size == 0 ? (int)BPFHOST_ERR_SIZE : bpfhost_read_reply(bytes, length, &known);
    if (code == BPFHOST_DONE) {
        memset(reply, 0, size);
        memcpy(reply, &known, size < sizeof known ? size : sizeof known);
    }
    return code;
}

static inline BPFHOST_SELDOM int bpfhost_ask_by_pairs(bpfhost *host, const uint8_t *frame, size_t frame_length, bpfhost_reply *reply)
{
    bpfhost_bytes lent = {bpfhost_bytes_at(NULL, 0), 0};
    int code = bpfhost_frame_code(host, frame, frame_length, reply, sizeof *reply);
    if (code == BPFHOST_DONE)
        code = bpfhost_lent_code(host, frame, frame_length);
    if (code == BPFHOST_DONE)
        code = bpfhost_lend(host, frame, frame_length, &lent);
    if (code == BPFHOST_DONE)
        bpfhost_read_fields(lent.at, lent.length, reply);
    return code;
}

/* Handles a frame and reads the reply, whose payload is lent until the next call on this host. ERR_NO_HOST, ERR_NULL,
 * ERR_LENGTH, ERR_OVERLAP, ERR_LENT: nothing is written, and no tenant's state has changed. */
static inline int bpfhost_ask(bpfhost *host, const void *frame, size_t frame_length, bpfhost_reply *reply)
{
    const uint8_t *at = bpfhost_bytes_at(frame, frame_length);
    bpfhost_bytes lent = {bpfhost_bytes_at(NULL, 0), 0};
    int code;
    if (!bpfhost_is_frame_right(host, at, frame_length, reply, sizeof *reply, 0))
        return bpfhost_ask_by_pairs(host, at, frame_length, reply);
    code = bpfhost_lend(host, at, frame_length, &lent);
    if (code == BPFHOST_DONE)
        bpfhost_read_fields(lent.at, lent.length, reply);
    return code;
}

/* The same for a reply of `size` bytes, as bpfhost_read_reply_sized has it. ERR_SIZE: it has no byte, and no tenant's state has changed. */
static inline int bpfhost_ask_sized(bpfhost *host, const void *frame, size_t frame_length, void *reply, size_t size)
{
    const uint8_t *at = bpfhost_bytes_at(frame, frame_length);
    bpfhost_bytes lent = {bpfhost_bytes_at(NULL, 0), 0};
    int code = bpfhost_frame_code(host, at, frame_length, reply, size);
    if (code == BPFHOST_DONE)
        code = size == 0 ? (int)BPFHOST_ERR_SIZE : bpfhost_lent_code(host, at, frame_length);
    if (code == BPFHOST_DONE)
        code = bpfhost_lend(host, at, frame_length, &lent);
    return code == BPFHOST_DONE ? bpfhost_read_reply_sized(lent.at, lent.length, reply, size) : code;
}

/* ---- commands, each by one call: as the functions bpf_* of libbpf, without a frame and a buffer of the caller's. What is returned is the
 * code of the call; the host's reply is in the result. A frame of up to BPFHOST_ROOM bytes is made on the stack, a longer one in memory of
 * malloc. */

#define BPFHOST_ROOM (16 + 512 + BPFHOST_LONGEST_PAYLOAD) /* an update with the longest key and the longest value; a load of 577 slots */

/* The attributes of a map. A later version may have more words after these: bpfhost_map_create_sized takes the size. */
typedef struct bpfhost_map_attr {
    uint32_t type;       /* BPFHOST_HASH or BPFHOST_ARRAY */
    uint32_t key_size;   /* in bytes */
    uint32_t value_size; /* in bytes */
    uint32_t entries;    /* at most */
    uint32_t flags;      /* 0 */
} bpfhost_map_attr;

/* The host's reply to a command. It stays as it is in later versions. */
typedef struct bpfhost_result {
    int32_t status;  /* a new descriptor, 0, or a negative error number of bpf(2) */
    uint32_t result; /* of a test run with status 0; of bpfhost_close_all, how many were closed; else 0 */
    uint32_t slot;   /* of a load that is refused with a slot and a reason; else 0 */
    uint16_t reason;
    size_t length;   /* how many bytes of a value or a key were written; else 0 */
} bpfhost_result;

/* What is wrong with the host and the result of a command, or DONE. */
static inline int bpfhost_result_code(const bpfhost *host, const bpfhost_result *out)
{
    return bpfhost_pair_code(host, sizeof(bpfhost_memory), out, sizeof *out);
}

/* What is wrong with bytes that a command reads or writes, if its host and its result are right, or DONE. If there are none, their address
 * may be null. */
static inline int bpfhost_object_code(const bpfhost *host, const bpfhost_result *out, const void *at, size_t length)
{
    if (length == 0)
        return BPFHOST_DONE;
    if (at == NULL)
        return BPFHOST_ERR_NULL;
    if (length > PTRDIFF_MAX)
        return BPFHOST_ERR_LENGTH;
    return bpfhost_are_apart(host, sizeof(bpfhost_memory), at, length) && bpfhost_are_apart(out, sizeof *out, at, length)
             ? BPFHOST_DONE
             : BPFHOST_ERR_OVERLAP;
}

/* Writes the result of a command that is no test run, with `length` bytes of a payload for the caller. */
static inline void bpfhost_set_result(bpfhost_result *out, int32_t status, size_t length)
{
    out->status = status;
    out->result = 0;
    out->slot = 0;
    out->reason = 0;
    out->length = length;
}

/* Handles a frame that was built here: the payload of a reply with status 0 goes to `to`. ERR_BUFFER_TOO_SMALL: it is longer, and nothing
 * is written. A reply has 12 bytes at least. */
static inline int bpfhost_carry_out(bpfhost *host, const uint8_t *frame, size_t frame_length, void *to, size_t to_length,
                                    bpfhost_result *out)
{
    bpfhost_bytes lent = {bpfhost_bytes_at(NULL, 0), 0};
    int32_t status;
    size_t copied;
    int code = bpfhost_lend(host, frame, frame_length, &lent);
    if (code != BPFHOST_DONE)
        return code;
    status = (int32_t)bpfhost_get32(lent.at + 8);
    copied = status == 0 ? lent.length - 12 : 0;
    if (copied > to_length)
        return BPFHOST_ERR_BUFFER_TOO_SMALL;
    if (to != NULL)
        memcpy(to, lent.at + 12, copied);
    bpfhost_set_result(out, status, copied);
    if (status < 0 && lent.length == 18) { /* of a load */
        out->slot = bpfhost_get32(lent.at + 12);
        out->reason = bpfhost_get16(lent.at + 16);
    }
    return BPFHOST_DONE;
}

/* Carries out a command whose frame has a number and bytes that were tested, and is made in memory of malloc. */
static inline int bpfhost_carry_out_long(bpfhost *host, uint16_t tenant, enum bpfhost_command command, uint32_t number, const void *bytes,
                                         size_t length, void *to, size_t to_length, bpfhost_result *out)
{
    uint8_t *frame = length > PTRDIFF_MAX - 8 ? NULL : (uint8_t *)malloc(8 + length);
    int code = BPFHOST_ERR_NO_MEMORY;
    if (frame != NULL) {
        bpfhost_put_bytes(bpfhost_put_head(frame, tenant, command, number), bytes, length);
        code = bpfhost_carry_out(host, frame, 8 + length, to, to_length, out);
        free(frame);
    }
    return code;
}

/* Carries out a command whose frame has a number and bytes. It is inlined by force: most callers have constant lengths, of which most tests
 * and copies then leave nothing. */
static inline BPFHOST_BY_FORCE int bpfhost_carry_out_on(bpfhost *host, uint16_t tenant, enum bpfhost_command command, uint32_t number, const void *bytes,
                                       size_t length, void *to, size_t to_length, bpfhost_result *out)
{
    uint8_t room[BPFHOST_ROOM];
    int code = bpfhost_result_code(host, out);
    if (code == BPFHOST_DONE)
        code = bpfhost_object_code(host, out, bytes, length);
    if (code == BPFHOST_DONE)
        code = bpfhost_object_code(host, out, to, to_length);
    if (code != BPFHOST_DONE)
        return code;
    if (!bpfhost_are_apart(bytes, length, to, to_length))
        return BPFHOST_ERR_OVERLAP;
    if (length > sizeof room - 8)
        return bpfhost_carry_out_long(host, tenant, command, number, bytes, length, to, to_length, out);
    bpfhost_put_bytes(bpfhost_put_head(room, tenant, command, number), bytes, length);
    return bpfhost_carry_out(host, room, 8 + length, to, to_length, out);
}

/* MAP_CREATE with attributes of `size` bytes, whole words: a word that the caller does not have counts as 0. The status is a new
 * descriptor. ERR_SIZE, ERR_TOO_BIG for a word that this version does not know and that is not 0, ERR_NULL, ERR_LENGTH, ERR_OVERLAP:
 * nothing is written, and no tenant's state has changed. */
static inline int bpfhost_map_create_sized(bpfhost *host, uint16_t tenant, const void *attr, size_t size, bpfhost_result *out)
{
    const uint8_t *at = (const uint8_t *)attr;
    uint8_t frame[24];
    bpfhost_map_attr known = {0, 0, 0, 0, 0};
    int code = bpfhost_result_code(host, out);
    if (code == BPFHOST_DONE)
        code = attr == NULL ? (int)BPFHOST_ERR_NULL : bpfhost_object_code(host, out, attr, size);
    if (code == BPFHOST_DONE && (size == 0 || size % sizeof(uint32_t) != 0))
        code = BPFHOST_ERR_SIZE;
    for (size_t i = sizeof known; code == BPFHOST_DONE && i < size; i++)
        if (at[i] != 0)
            code = BPFHOST_ERR_TOO_BIG;
    if (code != BPFHOST_DONE)
        return code;
    memcpy(&known, attr, size < sizeof known ? size : sizeof known);
    bpfhost_frame_map_create(frame, sizeof frame, tenant, known.type, known.key_size, known.value_size, known.entries, known.flags);
    return bpfhost_carry_out(host, frame, sizeof frame, frame, 0, out);
}

/* The same with attributes of this header. */
static inline int bpfhost_map_create(bpfhost *host, uint16_t tenant, const bpfhost_map_attr *attr, bpfhost_result *out)
{
    return bpfhost_map_create_sized(host, tenant, attr, sizeof *attr, out);
}

/* MAP_LOOKUP_ELEM: `value` gets the value of a key. ERR_BUFFER_TOO_SMALL: the map's values are longer than `value_size`. ERR_NULL,
 * ERR_LENGTH, ERR_OVERLAP, ERR_NO_MEMORY for a key of more bytes than any map has: as after it, nothing is written. No tenant's state
 * changes. */
static inline int bpfhost_map_lookup(bpfhost *host, uint16_t tenant, uint32_t fd, const void *key, size_t key_size, void *value,
                                     size_t value_size, bpfhost_result *out)
{
    return bpfhost_carry_out_on(host, tenant, BPFHOST_MAP_LOOKUP, fd, key, key_size, value, value_size, out);
}

/* MAP_UPDATE_ELEM. `flags` is one of bpfhost_update_flags. ERR_NULL, ERR_LENGTH, ERR_OVERLAP, ERR_NO_MEMORY for a key or a value of more
 * bytes than any map has: nothing is written, and no tenant's state has changed. */
static inline int bpfhost_map_update(bpfhost *host, uint16_t tenant, uint32_t fd, const void *key, size_t key_size, const void *value,
                                     size_t value_size, uint64_t flags, bpfhost_result *out)
{
    uint8_t room[BPFHOST_ROOM], *frame = room;
    int code = bpfhost_result_code(host, out);
    if (code == BPFHOST_DONE)
        code = bpfhost_object_code(host, out, key, key_size);
    if (code == BPFHOST_DONE)
        code = bpfhost_object_code(host, out, value, value_size);
    if (code != BPFHOST_DONE)
        return code;
    if (key_size > sizeof room - 16 || value_size > sizeof room - 16 - key_size) {
        const bool is_too_long = key_size > PTRDIFF_MAX - 16 || value_size > PTRDIFF_MAX - 16 - key_size;
        frame = is_too_long ? NULL : (uint8_t *)malloc(16 + key_size + value_size);
        if (frame == NULL)
            return BPFHOST_ERR_NO_MEMORY;
    }
    bpfhost_put_bytes(bpfhost_put_bytes(bpfhost_put64(bpfhost_put_head(frame, tenant, BPFHOST_MAP_UPDATE, fd), flags), key, key_size), value,
                      value_size);
    code = bpfhost_carry_out(host, frame, 16 + key_size + value_size, frame, 0, out);
    if (frame != room)
        free(frame);
    return code;
}

/* MAP_DELETE_ELEM, with the codes of bpfhost_map_update. */
static inline int bpfhost_map_delete(bpfhost *host, uint16_t tenant, uint32_t fd, const void *key, size_t key_size, bpfhost_result *out)
{
    return bpfhost_carry_out_on(host, tenant, BPFHOST_MAP_DELETE, fd, key, key_size, NULL, 0, out);
}

/* MAP_GET_NEXT_KEY: `next` gets the key after `key`, or the first one if `key_size` is 0. The codes are those of bpfhost_map_lookup, with
 * keys in the place of values. */
static inline int bpfhost_map_get_next_key(bpfhost *host, uint16_t tenant, uint32_t fd, const void *key, size_t key_size, void *next,
                                           size_t next_size, bpfhost_result *out)
{
    return bpfhost_carry_out_on(host, tenant, BPFHOST_MAP_NEXT_KEY, fd, key, key_size, next, next_size, out);
}

/* PROG_LOAD of so many slots of 8 bytes. `type` is BPFHOST_SOCKET_FILTER. The status is a new descriptor, or the result has the slot and
 * the reason. The codes are those of bpfhost_map_update. */
static inline int bpfhost_prog_load(bpfhost *host, uint16_t tenant, uint32_t type, const void *slots, size_t slot_count,
                                    bpfhost_result *out)
{
    if (slot_count > PTRDIFF_MAX / 8)
        return BPFHOST_ERR_LENGTH;
    return bpfhost_carry_out_on(host, tenant, BPFHOST_PROG_LOAD, type, slots, 8 * slot_count, NULL, 0, out);
}

/* PROG_TEST_RUN with a context of `context_size` bytes, as bpfhost_run_packets_sized has it; null is one with zeros. It is a batch of one
 * packet, so nothing is copied. ERR_SIZE, ERR_TOO_BIG, ERR_NO_MEMORY for a context of another size than the library's, ERR_NULL,
 * ERR_LENGTH, ERR_OVERLAP, ERR_LENT: nothing is written, and no tenant's state has changed. */
static inline int bpfhost_prog_test_run_sized(bpfhost *host, uint16_t tenant, uint32_t fd, const void *context, size_t context_size,
                                              const void *packet, size_t packet_length, bpfhost_result *out)
{
    const bpfhost_contexts one = {context, context_size, 1}, zeros = {bpfhost_context_at(NULL), sizeof(bpfhost_context), 1};
    const bpfhost_contexts given = context == NULL ? zeros : one;
    uint32_t result = 0;
    int32_t status = 0;
    size_t ran = 0;
    int code = bpfhost_result_code(host, out);
    if (code == BPFHOST_DONE)
        code = bpfhost_contexts_code(given);
    if (code == BPFHOST_DONE)
        code = bpfhost_object_code(host, out, given.at, given.size);
    if (code == BPFHOST_DONE)
        code = bpfhost_object_code(host, out, packet, packet_length);
    if (code == BPFHOST_DONE)
        code = bpfhost_lent_code(host, bpfhost_bytes_at(packet, packet_length), packet_length);
    if (code == BPFHOST_DONE)
        code = bpfhost_run_given(host, tenant, fd, 0, given, bpfhost_bytes_at(packet, packet_length), packet_length, &packet_length, 1,
                                 &result, &status, &ran);
    if (code != BPFHOST_DONE)
        return code;
    bpfhost_set_result(out, status, 0);
    out->result = status == 0 ? result : 0;
    return BPFHOST_DONE;
}

/* The same with a context of this header. */
static inline int bpfhost_prog_test_run(bpfhost *host, uint16_t tenant, uint32_t fd, const bpfhost_context *context, const void *packet,
                                        size_t packet_length, bpfhost_result *out)
{
    return bpfhost_prog_test_run_sized(host, tenant, fd, context, sizeof *context, packet, packet_length, out);
}

/* ---- programs that are verified without a host, on any thread, and installed in one later */

/* Verifies a program of so many slots of 8 bytes with the objects that its descriptors are to name. If it is accepted, `*prepared` leads to
 * it then, until bpfhost_prepared_free; the status is 0. If it is refused, `*prepared` is null, and the result has the status, the slot and
 * the reason of PROG_LOAD for descriptors with these objects. Of several entries with one descriptor the first counts. ERR_DESCRIPTORS: a map
 * of such a shape cannot be, or there are more than BPFHOST_MOST_DESCRIPTORS. ERR_NO_MEMORY, ERR_VERSION, ERR_NULL, ERR_LENGTH, ERR_OVERLAP:
 * nothing is written. */
static inline int bpfhost_prepare(const void *slots, size_t slot_count, const bpfhost_descriptor *descriptors, size_t descriptor_count,
                                  bpfhost_prepared **prepared, bpfhost_result *result)
{
    static const bpfhost_descriptor none[1] = {{0, 0, 0, 0, 0}};
    const bpfhost_descriptor *named = descriptor_count == 0 ? none : descriptors;
    const size_t named_size = descriptor_count > PTRDIFF_MAX / sizeof *named ? SIZE_MAX : descriptor_count * sizeof *named;
    const size_t length = slot_count > PTRDIFF_MAX / 8 ? SIZE_MAX : 8 * slot_count;
    const uint8_t *at = bpfhost_bytes_at(slots, length);
    bpfhost_prepared *made;
    bpfhost_refusal refusal = {0, 0, 0};
    int code = bpfhost_pair_code(prepared, sizeof *prepared, result, sizeof *result);
    if (code == BPFHOST_DONE)
        code = bpfhost_pair_code(prepared, sizeof *prepared, at, length);
    if (code == BPFHOST_DONE)
        code = bpfhost_pair_code(prepared, sizeof *prepared, named, named_size);
    if (code == BPFHOST_DONE)
        code = bpfhost_pair_code(result, sizeof *result, at, length);
    if (code == BPFHOST_DONE)
        code = bpfhost_pair_code(result, sizeof *result, named, named_size);
    if (code == BPFHOST_DONE && bpfhost_c_abi() != BPFHOST_ABI)
        code = BPFHOST_ERR_VERSION;
    if (code != BPFHOST_DONE)
        return code;
    made = (bpfhost_prepared *)calloc(1, sizeof(bpfhost_memory));
    if (made == NULL)
        return BPFHOST_ERR_NO_MEMORY;
    code = (int)bpfhost_c_prepare(made, at, length, named, descriptor_count, &refusal);
    if (code == BPFHOST_DONE) {
        bpfhost_set_result(result, refusal.status, 0);
        result->slot = refusal.slot;
        result->reason = (uint16_t)refusal.reason;
        *prepared = refusal.status == 0 ? made : NULL;
    }
    if (code != BPFHOST_DONE || refusal.status != 0)
        free(made);
#ifdef BPFHOST_DEBUG
    else
        bpfhost_memory_of((bpfhost *)(void *)made)->state = BPFHOST_MADE;
#endif
    return code;
}

/* Installs a prepared program in a tenant: what happens, and the status, are those of PROG_LOAD of its slots, but it is neither copied nor
 * verified again. The program is used up then, whatever the status is. ERR_STALE: a descriptor of the program names no map of the shape with
 * which it was prepared, and nothing has changed: load the slots. ERR_NO_PROGRAM: it was installed already. ERR_NULL, ERR_OVERLAP: nothing
 * is written, and no tenant's state has changed. */
static inline int bpfhost_install(bpfhost *host, uint16_t tenant, bpfhost_prepared *prepared, bpfhost_result *result)
{
    bpfhost *memory = (bpfhost *)(void *)prepared;
    int32_t status = 0;
    int code = bpfhost_frame_code(host, (const uint8_t *)prepared, sizeof(bpfhost_memory), result, sizeof *result);
    if (code != BPFHOST_DONE)
        return code;
    bpfhost_enter(host);
    bpfhost_enter(memory);
    code = (int)bpfhost_c_install(host, tenant, prepared, &status);
    bpfhost_leave(memory);
    bpfhost_leave(host);
    if (code == BPFHOST_DONE)
        bpfhost_set_result(result, status, 0);
    return code;
}

/* Frees a prepared program, installed or not. Null is ignored. */
static inline void bpfhost_prepared_free(bpfhost_prepared *prepared)
{
    bpfhost *memory = (bpfhost *)(void *)prepared;
    if (prepared == NULL)
        return;
    bpfhost_enter(memory);
    bpfhost_c_prepared_free(prepared);
    bpfhost_give_back(memory);
}

/* CLOSE of a descriptor. ERR_NULL, ERR_OVERLAP: nothing is written, and no tenant's state has changed. */
static inline int bpfhost_close(bpfhost *host, uint16_t tenant, uint32_t fd, bpfhost_result *out)
{
    return bpfhost_carry_out_on(host, tenant, BPFHOST_CLOSE, fd, NULL, 0, NULL, 0, out);
}

/* Closes all descriptors of a tenant, by a CLOSE of each: then it is new again. The status is 0, or -1 (EPERM) for a tenant that is not
 * served; the result is how many were open. ERR_NULL, ERR_OVERLAP: nothing is written, and no tenant's state has changed. */
static inline int bpfhost_close_all(bpfhost *host, uint16_t tenant, bpfhost_result *out)
{
    const uint32_t end = BPFHOST_FIRST_DESCRIPTOR + BPFHOST_MOST_DESCRIPTORS;
    uint32_t closed = 0;
    bpfhost_result each = {0, 0, 0, 0, 0};
    int code = bpfhost_result_code(host, out);
    for (uint32_t fd = BPFHOST_FIRST_DESCRIPTOR; code == BPFHOST_DONE && each.status != -1 && fd < end; fd++) {
        code = bpfhost_close(host, tenant, fd, &each);
        closed += each.status == 0;
    }
    if (code == BPFHOST_DONE) {
        bpfhost_set_result(out, each.status == -1 ? -1 : 0, 0); /* EPERM; that one is not open is no error */
        out->result = each.status == -1 ? 0 : closed;
    }
    return code;
}

/* The length of the frame at the front of bytes, after its length field, if the frame is whole and this tenant's; else 0. */
static inline size_t bpfhost_frame_of_tenant(const uint8_t *at, size_t left, uint16_t tenant)
{
    size_t size = left < 8 ? 0 : bpfhost_get32(at);
    return size < 4 || left - 4 < size || bpfhost_get16(at + 4) != tenant ? 0 : size;
}

/* Whether bytes are whole frames of one tenant; `longest` gets the length of the longest one, without its length field. */
static inline bool bpfhost_are_of_one_tenant(const uint8_t *at, size_t left, size_t *longest)
{
    const uint16_t tenant = left < 8 ? 0 : bpfhost_get16(at + 4);
    size_t size = 1;
    *longest = 0;
    while (size != 0 && left > 0) {
        size = bpfhost_frame_of_tenant(at, left, tenant);
        *longest = size > *longest ? size : *longest;
        at += size == 0 ? 0 : 4 + size;
        left -= size == 0 ? 0 : 4 + size;
    }
    return left == 0;
}

/* Gives saved frames, with their length fields, to a tenant one after another, and stops at the first that is refused. They may be those
 * of all parts or of some: a save is restored by its parts in their order, in any number of calls. The tenant has to be new: it was
 * given no frame yet, or has nothing open any more. `status` gets the status of the last reply, or 0 if there are no frames.
 * ERR_BAD_FRAMES: the bytes end inside a frame, or a frame is another tenant's, and is not handled; the frames before it are. ERR_REFUSED: a
 * frame is refused with this status, and those before it are handled: the tenant was not new (-24, EMFILE), or memory was refused
 * (-12, ENOMEM). After both, the tenant is not the saved one: bpfhost_close_all makes it new again. ERR_NULL, ERR_LENGTH,
 * ERR_OVERLAP, ERR_LENT: nothing is written, and no tenant's state has changed. */
static inline int bpfhost_restore(bpfhost *host, uint16_t tenant, const void *frames, size_t length, int32_t *status)
{
    const uint8_t *at = bpfhost_bytes_at(frames, length);
    size_t left = length;
    int32_t told = 0;
    int code = bpfhost_frame_code(host, at, length, status, sizeof *status);
    if (code == BPFHOST_DONE)
        code = bpfhost_lent_code(host, at, length);
    while (code == BPFHOST_DONE && left > 0) {
        size_t size = bpfhost_frame_of_tenant(at, left, tenant);
        bpfhost_reply reply;
        code = size == 0 ? BPFHOST_ERR_BAD_FRAMES : bpfhost_ask(host, at + 4, size, &reply);
        if (code == BPFHOST_DONE) {
            told = reply.status;
            code = told < 0 ? BPFHOST_ERR_REFUSED : BPFHOST_DONE;
            at += 4 + size;
            left -= 4 + size;
        }
    }
    if (code == BPFHOST_DONE || code == BPFHOST_ERR_REFUSED || code == BPFHOST_ERR_BAD_FRAMES)
        *status = told;
    return code;
}

/* Gives whole frames with their length fields to a tenant, each copied to a room that it fits into, with this tenant's number. Stops at the
 * first that is refused, with ERR_REFUSED, or ERR_NO_HOST; `status` gets the status of the last reply. It tests nothing. */
static inline int bpfhost_give_as(bpfhost *host, uint16_t tenant, const uint8_t *at, size_t left, uint8_t *room, int32_t *status)
{
    int code = BPFHOST_DONE;
    while (code == BPFHOST_DONE && left > 0) {
        size_t size = bpfhost_get32(at), kept = size > BPFHOST_LONGEST_FRAME ? BPFHOST_LONGEST_FRAME + 1 : size;
        bpfhost_bytes lent = {bpfhost_bytes_at(NULL, 0), 0};
        memcpy(bpfhost_put16(room, tenant), at + 6, kept - 2);
        code = bpfhost_lend(host, room, kept, &lent); /* a frame that is too long is refused by its length */
        if (code == BPFHOST_DONE) {
            *status = (int32_t)bpfhost_get32(lent.at + 8);
            code = *status < 0 ? BPFHOST_ERR_REFUSED : BPFHOST_DONE;
            at += 4 + size;
            left -= 4 + size;
        }
    }
    return code;
}

/* The same as bpfhost_restore for saved frames of any one tenant: each is given to this one in a copy with its number. Unless it is refused
 * memory, the tenant then replies as the saved one does, but for the number. All frames of a call are looked at before the first is
 * handled: with ERR_BAD_FRAMES, as they end inside a frame or are of several tenants, none is handled, and nothing is written; nor is it
 * with ERR_NO_MEMORY, for a copy of more than BPFHOST_ROOM bytes. ERR_REFUSED, ERR_NULL, ERR_LENGTH, ERR_OVERLAP and ERR_LENT as there:
 * what the same host has lent has to be copied. */
static inline int bpfhost_restore_as(bpfhost *host, uint16_t tenant, const void *frames, size_t length, int32_t *status)
{
    const uint8_t *at = bpfhost_bytes_at(frames, length);
    uint8_t here[BPFHOST_ROOM], *room = here;
    size_t longest = 0;
    int32_t told = 0;
    int code = bpfhost_frame_code(host, at, length, status, sizeof *status);
    if (code == BPFHOST_DONE)
        code = bpfhost_lent_code(host, at, length);
    if (code == BPFHOST_DONE && !bpfhost_are_of_one_tenant(at, length, &longest))
        code = BPFHOST_ERR_BAD_FRAMES;
    if (code == BPFHOST_DONE && longest > sizeof here) {
        room = (uint8_t *)malloc(longest > BPFHOST_LONGEST_FRAME ? BPFHOST_LONGEST_FRAME + 1 : longest);
        code = room == NULL ? BPFHOST_ERR_NO_MEMORY : BPFHOST_DONE;
    }
    if (code != BPFHOST_DONE)
        return code;
    code = bpfhost_give_as(host, tenant, at, length, room, &told);
    if (room != here)
        free(room);
    if (code == BPFHOST_DONE || code == BPFHOST_ERR_REFUSED)
        *status = told;
    return code;
}

/* A code in words. */
static inline const char *bpfhost_code_text(int code)
{
    switch (code) {
    /* texts of codes: written by tools/generate */
    case BPFHOST_DONE: return "the call succeeded";
    case BPFHOST_ERR_NO_HOST: return "the handle is empty";
    case BPFHOST_ERR_HAS_HOST: return "the handle has a host already";
    case BPFHOST_ERR_TENANT_COUNT: return "a host has 1 to 64 tenants";
    case BPFHOST_ERR_NO_MEMORY: return "out of memory for the host or for the call";
    case BPFHOST_ERR_BUFFER_TOO_SMALL: return "the buffer is smaller than the longest reply, or than a value or a key";
    case BPFHOST_ERR_NO_PART: return "the tenant has no such part, or is not served";
    case BPFHOST_ERR_TOO_BIG: return "a struct has a word that the library does not know, and that is not 0";
    case BPFHOST_ERR_SIZE: return "a struct has no size, or one of no whole words";
    case BPFHOST_ERR_STALE: return "a descriptor of the program names no map of the shape with which it was prepared";
    case BPFHOST_ERR_NO_PROGRAM: return "there is no prepared program: it was installed or freed";
    case BPFHOST_ERR_HAS_PROGRAM: return "there is a prepared program already";
    case BPFHOST_ERR_DESCRIPTORS: return "a descriptor is given an object that there cannot be, or there are too many";
    case BPFHOST_ERR_STYLE: return "there is no style of a log with this number";
    case BPFHOST_ERR_NULL: return "a pointer is null";
    case BPFHOST_ERR_LENGTH: return "a length is above PTRDIFF_MAX";
    case BPFHOST_ERR_OVERLAP: return "an object that the call may write, the handle included, overlaps another one";
    case BPFHOST_ERR_NO_REPLY: return "the bytes are not one whole reply";
    case BPFHOST_ERR_STOPPED: return "the sink stopped the save";
    case BPFHOST_ERR_REFUSED: return "a frame that restores the tenant is refused";
    case BPFHOST_ERR_BAD_FRAMES: return "the bytes are not whole frames of this tenant, or of one tenant";
    case BPFHOST_ERR_VERSION: return "the library is of another binary interface than the header";
    case BPFHOST_ERR_LENT: return "a frame or a packet lies in what the host has lent";
    case BPFHOST_ERR_WHICH: return "there is no count of this number here";
    /* end of texts of codes */
    default: return "no code of bpfhost";
    }
}

/* The reason of a refused program in words, as bpfhost_reply has it. */
static inline const char *bpfhost_reason_text(uint16_t reason)
{
    switch (reason) {
    /* reasons: written by tools/generate */
    case 1: return "a jump out of the program, or into the second half of a wide instruction";
    case 2: return "a jump to the same or an earlier slot";
    case 3: return "the last instruction can go on past the end";
    case 4: return "no path leads to the instruction";
    case 5: return "an unknown helper";
    case 6: return "arithmetic or a load into the frame pointer";
    case 7: return "a map's descriptor is not open";
    case 8: return "a map's descriptor is of something else";
    case 9: return "a value is loaded directly that the map does not have";
    case 20: return "an unreadable register is read";
    case 21: return "the result at the exit is not a scalar";
    case 22: return "an access at what is not a pointer";
    case 23: return "arithmetic on a pointer";
    case 24: return "a pointer is moved too far";
    case 25: return "outside the stack";
    case 26: return "not aligned in the stack";
    case 27: return "a stack byte that may not be written is read";
    case 28: return "a part of a spilled pointer";
    case 29: return "outside a map's value";
    case 30: return "the pointer may be null";
    case 31: return "an access to the context other than a load of one of its words";
    case 32: return "a pointer is stored outside the stack";
    case 33: return "a pointer is compared with something other than null";
    case 34: return "a helper's argument of the wrong kind";
    case 35: return "a helper's length may be zero or too large";
    case 36: return "an atomic operation in a map's value at an offset that is not known to be a multiple of its size";
    case 40: return "the verifier got no memory";
    case 101: return "no instruction begins with this byte";
    case 102: return "a field has a value that no instruction has there";
    case 103: return "a register's number is above 10";
    case 104: return "the second slot of a wide load is missing or wrong";
    case 105: return "the bytes are no whole slots";
    case 106: return "there is no slot";
    case 107: return "there are more than 4,096 slots";
    case 108: return "out of memory for the program";
    /* end of reasons */
    default: return "no reason of bpfhost";
    }
}

#ifdef __cplusplus
#ifdef __GNUC__
#pragma GCC diagnostic pop
#endif
}
#endif

#endif
