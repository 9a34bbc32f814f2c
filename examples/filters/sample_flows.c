/* Keeps all packets of one flow of eight: a hash of addresses and ports decides, in functions of their own. */
#include "filters.h"

struct flow {
    u32 addresses[2];
    u32 ports;
};

u64 kept;

static __noinline u32 mixed(u32 hash, u32 word)
{
    hash ^= word;
    hash *= 16777619;
    return hash ^ hash >> 15;
}

static __noinline u32 hash_of(const struct flow *flow)
{
    u32 hash = 2166136261;
    hash = mixed(hash, flow->addresses[0] ^ flow->addresses[1]);
    return mixed(hash, (flow->ports >> 16) ^ (flow->ports & 0xffff));
}

SEC("socket") int sample_by_flow(struct __sk_buff *skb)
{
    struct flow flow;
    u8 words;
    if (skb->protocol != bpf_htons(ETH_P_IP) || load_byte(skb, ETH_HLEN, &words))
        return 0;
    if (bpf_skb_load_bytes(skb, ETH_HLEN + 12, &flow, 8) || bpf_skb_load_bytes(skb, ETH_HLEN + (words & 15) * 4, &flow.ports, 4))
        return 0;
    if (hash_of(&flow) % 8)
        return 0;
    __sync_fetch_and_add(&kept, 1);
    return -1;
}
