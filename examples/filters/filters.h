/* What the filters of this folder share: the host's header, numbers of protocols by the names that linux/if_ether.h and linux/in.h
 * give them, and the fields of headers that they read. */

#include <bpfhost/filter.h>

enum { BPF_MAP_TYPE_PERCPU_HASH = 5, BPF_MAP_TYPE_PERCPU_ARRAY = 6 };
enum { BPF_F_NO_PREALLOC = 1, LIBBPF_PIN_BY_NAME = 1 };

#define bpf_htons(number) ((unsigned short)__builtin_bswap16(number))
#define bpf_ntohs(number) ((unsigned short)__builtin_bswap16(number))
#define bpf_ntohl(number) __builtin_bswap32(number)
#define __noinline __attribute__((noinline))
#define __always_inline inline __attribute__((always_inline))

#define ETH_HLEN 14
#define ETH_P_IP 0x0800
#define ETH_P_ARP 0x0806
#define ETH_P_8021Q 0x8100
#define ETH_P_8021AD 0x88a8
#define ETH_P_IPV6 0x86dd

enum {
    IPPROTO_HOPOPTS = 0,
    IPPROTO_ICMP = 1,
    IPPROTO_IPIP = 4,
    IPPROTO_TCP = 6,
    IPPROTO_UDP = 17,
    IPPROTO_IPV6 = 41,
    IPPROTO_ROUTING = 43,
    IPPROTO_FRAGMENT = 44,
    IPPROTO_GRE = 47,
    IPPROTO_ESP = 50,
    IPPROTO_AH = 51,
    IPPROTO_ICMPV6 = 58,
    IPPROTO_DSTOPTS = 60,
    IPPROTO_SCTP = 132,
};

typedef unsigned char u8;
typedef unsigned short u16;
typedef unsigned int u32;
typedef unsigned long u64;

struct ipv4 {
    u8 version_and_words, service;
    u16 length, identification, fragment;
    u8 hops, protocol;
    u16 checksum;
    u32 source, destination;
};

struct ports {
    u16 source, destination;
};

/* Reads a byte, or two in network byte order; if the packet ends before, the result is not 0, and the number is 0. */
static __always_inline int load_byte(struct __sk_buff *skb, u32 at, u8 *to)
{
    return bpf_skb_load_bytes(skb, at, to, 1) != 0;
}

static __always_inline int load_half(struct __sk_buff *skb, u32 at, u16 *to)
{
    u16 raw;
    long failed = bpf_skb_load_bytes(skb, at, &raw, sizeof raw);
    *to = bpf_ntohs(raw);
    return failed != 0;
}

/* Counts one more under a key of a hash map. */
static __always_inline void count(void *map, const void *key)
{
    u64 one = 1, *counted = bpf_map_lookup_elem(map, key);
    if (counted)
        __sync_fetch_and_add(counted, 1);
    else
        bpf_map_update_elem(map, key, &one, BPF_ANY);
}

/* Counts one more in an element of an array. */
static __always_inline void count_at(void *array, u32 index)
{
    u64 *counted = bpf_map_lookup_elem(array, &index);
    if (counted)
        __sync_fetch_and_add(counted, 1);
}
