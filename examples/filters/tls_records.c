/* Records of TLS by their kind and version. */
#include "filters.h"

struct record {
    u8 kind, major, minor, padding;
};

struct {
    __uint(type, BPF_MAP_TYPE_HASH);
    __type(key, struct record);
    __type(value, u64);
    __uint(max_entries, 64);
} records SEC(".maps");

static __noinline u32 payload_of_tcp(struct __sk_buff *skb)
{
    u8 words, protocol, offset;
    if (skb->protocol != bpf_htons(ETH_P_IP) || load_byte(skb, ETH_HLEN, &words) || load_byte(skb, ETH_HLEN + 9, &protocol))
        return 0;
    if (protocol != IPPROTO_TCP || load_byte(skb, ETH_HLEN + (words & 15) * 4 + 12, &offset))
        return 0;
    return ETH_HLEN + (words & 15) * 4 + (offset >> 4) * 4;
}

SEC("socket") int count_records(struct __sk_buff *skb)
{
    struct record record = {};
    u32 at = payload_of_tcp(skb);
    if (!at || bpf_skb_load_bytes(skb, at, &record, 3))
        return 0;
    if (record.kind < 20 || record.kind > 24 || record.major != 3)
        return 0;
    count(&records, &record);
    return at + 5;
}
