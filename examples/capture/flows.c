/* Keeps TCP and UDP over IPv4 and IPv6, after one VLAN tag or none. Counts packets and bytes by protocol, and of IPv4
 * by flow, and has the ten busiest flows in a map of their own. */

#include <bpfhost/filter.h>

/* A number of 16 bits as packets have it, the highest byte first. */
#define NETWORK(number) __builtin_bswap16(number)

#define ARP_TYPE 0x0806
#define IPV4_TYPE 0x0800
#define IPV6_TYPE 0x86dd
#define FRAGMENT_OFFSET 0x1fff

/* By their numbers in IP, and two of our own. */
enum protocol { OTHER = 0, ICMP = 1, TCP = 6, UDP = 17, FRAGMENT = 44, ICMPV6 = 58, ARP = 256, CUT_OFF = 257 };

struct count {
    unsigned long packets, bytes;
};

struct flow {
    unsigned char source[4], destination[4];
    unsigned short source_port, destination_port;
    enum protocol protocol;
};

struct {
    __uint(type, BPF_MAP_TYPE_HASH);
    __type(key, enum protocol);
    __type(value, struct count);
    __uint(max_entries, 258);
} protocols SEC(".maps");

struct {
    __uint(type, BPF_MAP_TYPE_HASH);
    __type(key, struct flow);
    __type(value, struct count);
    __uint(max_entries, 4096);
} flows SEC(".maps");

#define BUSIEST 10

/* A key that is deleted takes its room until the run ends, so there is room for one more. */
struct {
    __uint(type, BPF_MAP_TYPE_HASH);
    __type(key, struct flow);
    __type(value, struct count);
    __uint(max_entries, BUSIEST + 1);
} busiest SEC(".maps");

/* The keys of `busiest`, since a program can't go from key to key. */
struct {
    __uint(type, BPF_MAP_TYPE_ARRAY);
    __type(key, unsigned int);
    __type(value, struct flow);
    __uint(max_entries, BUSIEST);
} places SEC(".maps");

struct ethernet {
    unsigned char destination[6], source[6];
    unsigned short type;
};

struct vlan {
    unsigned short tag, type;
};

struct ipv4 {
    unsigned char version_and_words, service;
    unsigned short length, identification, fragment;
    unsigned char hops, protocol;
    unsigned short checksum;
    unsigned char source[4], destination[4];
};

struct ports {
    unsigned short source, destination;
};

/* Counts a packet under a key, and returns the new count. */
static inline unsigned long count(void *map, const void *key, unsigned long bytes)
{
    struct count first = { 1, bytes };
    struct count *counted = bpf_map_lookup_elem(map, key);
    if (!counted) {
        bpf_map_update_elem(map, key, &first, BPF_ANY);
        return 1;
    }
    counted->bytes += bytes;
    return counted->packets += 1;
}

/* The type after the addresses, or after one VLAN tag, and the offset of the next header; 0 if it is cut off. */
static inline unsigned short type_at(struct __sk_buff *skb, unsigned int *at)
{
    struct ethernet ethernet;
    struct vlan vlan;
    if (bpf_skb_load_bytes(skb, 0, &ethernet, sizeof ethernet))
        return 0;
    *at = sizeof ethernet;
    if (ethernet.type != NETWORK(0x8100) && ethernet.type != NETWORK(0x88a8) && ethernet.type != NETWORK(0x9100))
        return ethernet.type;
    *at += sizeof vlan;
    return bpf_skb_load_bytes(skb, sizeof ethernet, &vlan, sizeof vlan) ? 0 : vlan.type;
}

/* The protocol in a packet of this type, also of an IPv6 fragment. */
static inline enum protocol protocol_at(struct __sk_buff *skb, unsigned short type, unsigned int at)
{
    unsigned char number = 0;
    int is_ipv4 = type == NETWORK(IPV4_TYPE), is_ipv6 = type == NETWORK(IPV6_TYPE);
    if (is_ipv4 || is_ipv6) {
        if (bpf_skb_load_bytes(skb, at + (is_ipv4 ? 9 : 6), &number, sizeof number))
            return CUT_OFF;
        if (is_ipv6 && number == FRAGMENT && bpf_skb_load_bytes(skb, at + 40, &number, sizeof number))
            return CUT_OFF;
        return number;
    }
    return type == NETWORK(ARP_TYPE) ? ARP : type ? OTHER : CUT_OFF;
}

/* Puts a flow among the busiest ones, in the place of the one that has had the fewest packets, if those are fewer. */
static inline void rank(const struct flow *flow, unsigned long packets)
{
    unsigned long fewest = packets;
    unsigned int place = BUSIEST;
#pragma unroll
    for (unsigned int at = 0; at < BUSIEST; at++) {
        unsigned int key = at;
        struct flow *ranked = bpf_map_lookup_elem(&places, &key);
        struct count *counted = ranked ? bpf_map_lookup_elem(&busiest, ranked) : 0;
        unsigned long has = counted ? counted->packets : 0;
        if (has < fewest) {
            fewest = has;
            place = at;
        }
    }
    struct flow *replaced = bpf_map_lookup_elem(&places, &place);
    struct count *counted = bpf_map_lookup_elem(&flows, flow);
    if (!replaced || !counted)
        return;
    bpf_map_delete_elem(&busiest, replaced);
    bpf_map_update_elem(&busiest, flow, counted, BPF_ANY);
    *replaced = *flow;
}

static inline void count_flow(struct __sk_buff *skb, unsigned int at, enum protocol protocol)
{
    struct ipv4 ip;
    struct ports ports;
    if (bpf_skb_load_bytes(skb, at, &ip, sizeof ip) || ip.fragment & NETWORK(FRAGMENT_OFFSET))
        return;
    if (bpf_skb_load_bytes(skb, at + (ip.version_and_words & 15) * 4, &ports, sizeof ports))
        return;
    struct flow flow = { .source_port = NETWORK(ports.source), .destination_port = NETWORK(ports.destination) };
    __builtin_memcpy(flow.source, ip.source, sizeof flow.source);
    __builtin_memcpy(flow.destination, ip.destination, sizeof flow.destination);
    flow.protocol = protocol;
    unsigned long packets = count(&flows, &flow, skb->len);
    if (bpf_map_lookup_elem(&busiest, &flow))
        count(&busiest, &flow, skb->len);
    else
        rank(&flow, packets);
}

SEC("socket") unsigned int keep_flows(struct __sk_buff *skb)
{
    unsigned int at;
    unsigned short type = type_at(skb, &at);
    enum protocol protocol = protocol_at(skb, type, at);
    count(&protocols, &protocol, skb->len);
    if (protocol != TCP && protocol != UDP)
        return 0;
    if (type == NETWORK(IPV4_TYPE))
        count_flow(skb, at, protocol);
    return skb->len;
}
