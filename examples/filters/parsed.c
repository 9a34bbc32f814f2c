/* Several functions that fill one another's structs: a packet is parsed once, and three of them count what was found. */
#include "filters.h"

struct packet {
    u32 source, destination;
    struct ports ports;
    u8 protocol, has_ports;
    u16 size;
};

u64 by_size[4], by_side[2];

struct {
    __uint(type, BPF_MAP_TYPE_HASH);
    __type(key, u32);
    __type(value, u64);
    __uint(max_entries, 256);
} services SEC(".maps");

static __noinline int parse_ports(struct __sk_buff *skb, u32 at, struct packet *packet)
{
    struct ports ports;
    if (bpf_skb_load_bytes(skb, at, &ports, sizeof ports))
        return 1;
    packet->ports.source = bpf_ntohs(ports.source);
    packet->ports.destination = bpf_ntohs(ports.destination);
    packet->has_ports = 1;
    return 0;
}

static __noinline int parse(struct __sk_buff *skb, struct packet *packet)
{
    struct ipv4 ip;
    if (skb->protocol != bpf_htons(ETH_P_IP) || bpf_skb_load_bytes(skb, ETH_HLEN, &ip, sizeof ip))
        return 1;
    packet->source = ip.source;
    packet->destination = ip.destination;
    packet->protocol = ip.protocol;
    packet->size = bpf_ntohs(ip.length);
    if (ip.protocol != IPPROTO_TCP && ip.protocol != IPPROTO_UDP)
        return 0;
    return parse_ports(skb, ETH_HLEN + (ip.version_and_words & 15) * 4, packet);
}

static __noinline void count_size(const struct packet *packet)
{
    u32 size = packet->size;
    by_size[size < 64 ? 0 : size < 256 ? 1 : size < 1024 ? 2 : 3] += 1;
}

static __noinline void count_service(const struct packet *packet)
{
    u32 service = packet->ports.source < packet->ports.destination ? packet->ports.source : packet->ports.destination;
    service |= (u32)packet->protocol << 16;
    count(&services, &service);
    by_side[packet->ports.source < packet->ports.destination] += 1;
}

SEC("socket") int count_parsed(struct __sk_buff *skb)
{
    struct packet packet = {};
    if (parse(skb, &packet))
        return 0;
    count_size(&packet);
    if (packet.has_ports)
        count_service(&packet);
    return packet.size;
}
