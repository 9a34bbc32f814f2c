/* Packets by source and port, in a key that is filled member by member: nobody writes the two bytes after the port. */
#include "../filters.h"

struct key {
    u32 source;
    u16 port;
};

struct {
    __uint(type, BPF_MAP_TYPE_HASH);
    __type(key, struct key);
    __type(value, u64);
    __uint(max_entries, 512);
} counts SEC(".maps");

SEC("socket") int count_ports(struct __sk_buff *skb)
{
    struct ipv4 ip;
    struct ports ports;
    struct key key;
    if (bpf_skb_load_bytes(skb, ETH_HLEN, &ip, sizeof ip) || ip.version_and_words != 0x45)
        return 0;
    if (ip.protocol != IPPROTO_TCP && ip.protocol != IPPROTO_UDP)
        return 0;
    if (bpf_skb_load_bytes(skb, ETH_HLEN + sizeof ip, &ports, sizeof ports))
        return 0;
    key.source = ip.source;
    key.port = bpf_ntohs(ports.destination);
    count(&counts, &key);
    return -1;
}
