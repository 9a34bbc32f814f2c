/* A histogram of lengths by powers of two, whose logarithm a function finds. */
#include "filters.h"

struct histogram {
    u64 slots[32];
};

struct {
    __uint(type, BPF_MAP_TYPE_PERCPU_ARRAY);
    __type(key, u32);
    __type(value, struct histogram);
    __uint(max_entries, 1);
} lengths SEC(".maps");

static __noinline u32 log2_of(u32 number)
{
    u32 found = 0;
    if (number >= 1 << 16) {
        number >>= 16;
        found += 16;
    }
    if (number >= 1 << 8) {
        number >>= 8;
        found += 8;
    }
    if (number >= 1 << 4) {
        number >>= 4;
        found += 4;
    }
    if (number >= 1 << 2) {
        number >>= 2;
        found += 2;
    }
    return found + (number >> 1);
}

SEC("socket") int measure(struct __sk_buff *skb)
{
    u32 zero = 0, slot = log2_of(skb->len);
    struct histogram *histogram = bpf_map_lookup_elem(&lengths, &zero);
    if (histogram)
        histogram->slots[slot & 31] += 1;
    return slot;
}
