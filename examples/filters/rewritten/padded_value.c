/* The last packet of each protocol: its value has three bytes of padding after the first member, which nobody writes. */
#include "../filters.h"

struct last {
    u8 hops;
    u32 length;
    u64 packets;
};

struct {
    __uint(type, BPF_MAP_TYPE_HASH);
    __type(key, u32);
    __type(value, struct last);
    __uint(max_entries, 64);
} lasts SEC(".maps");

SEC("socket") int keep_lasts(struct __sk_buff *skb)
{
    struct ipv4 ip;
    struct last last, *before;
    u32 key;
    if (bpf_skb_load_bytes(skb, ETH_HLEN, &ip, sizeof ip) || ip.version_and_words >> 4 != 4)
        return 0;
    key = ip.protocol;
    before = bpf_map_lookup_elem(&lasts, &key);
    last.hops = ip.hops;
    last.length = skb->len;
    last.packets = before ? before->packets + 1 : 1;
    bpf_map_update_elem(&lasts, &key, &last, BPF_ANY);
    return ip.hops < 64 ? 64 : 0;
}
