/* Keeps packets whose first bytes add up to an odd number, and counts both kinds. It has a call, a loop, a map with a value for each
 * processor, and a variable that a loader may set: what `build` writes has none of these, but for the variable. */

#include "../filters/filters.h"

const volatile u32 kept = 60;

struct {
    __uint(type, BPF_MAP_TYPE_PERCPU_ARRAY);
    __type(key, u32);
    __type(value, u64);
    __uint(max_entries, 2);
} kinds SEC(".maps");

static __noinline u32 sum(struct __sk_buff *skb)
{
    u32 total = 0;
#pragma clang loop unroll(disable)
    for (int at = 0; at < 8; at++) {
        u8 byte;
        if (load_byte(skb, at, &byte))
            break;
        total += byte;
    }
    return total;
}

SEC("socket") unsigned int keep_odd(struct __sk_buff *skb)
{
    u32 is_odd = sum(skb) & 1;
    count_at(&kinds, is_odd);
    return is_odd ? kept : 0;
}
