/* A token bucket for each source of IPv4. There is no clock here, so each packet of the host is a tick: sixteen of them bring a
 * token, and a source has eight tokens at most. */
#include "filters.h"

#define TICKS 16
#define MOST 8

struct bucket {
    u64 tokens, filled;
};

struct {
    __uint(type, BPF_MAP_TYPE_HASH);
    __type(key, u32);
    __type(value, struct bucket);
    __uint(max_entries, 256);
} buckets SEC(".maps");

u64 now, passed, dropped;

static __noinline int takes(struct bucket *bucket, u64 tick)
{
    u64 fresh = (tick - bucket->filled) / TICKS;
    if (fresh) {
        bucket->tokens += fresh;
        bucket->filled += fresh * TICKS;
        if (bucket->tokens > MOST)
            bucket->tokens = MOST;
    }
    if (!bucket->tokens)
        return 0;
    bucket->tokens -= 1;
    return 1;
}

SEC("socket") int limit(struct __sk_buff *skb)
{
    u32 source;
    u64 tick = ++now;
    if (skb->protocol != bpf_htons(ETH_P_IP) || bpf_skb_load_bytes(skb, ETH_HLEN + 12, &source, sizeof source))
        return -1;
    struct bucket first = { MOST - 1, tick }, *bucket = bpf_map_lookup_elem(&buckets, &source);
    if (!bucket) {
        bpf_map_update_elem(&buckets, &source, &first, BPF_ANY);
        return -1;
    }
    int is_taken = takes(bucket, tick);
    if (is_taken)
        __sync_fetch_and_add(&passed, 1);
    else
        __sync_fetch_and_add(&dropped, 1);
    return is_taken ? -1 : 0;
}
