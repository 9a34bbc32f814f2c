/* Functions that a program calls, and a loop. */
#include "bpf.h"

int number;

static NOINLINE int sum(struct __sk_buff *skb)
{
    int total = 0;
#pragma clang loop unroll(disable)
    for (int at = 0; at < 4; at++) {
        __u8 byte;
        if (bpf_skb_load_bytes(skb, at, &byte, 1))
            break;
        total += byte;
    }
    return total;
}

NOINLINE int scaled(int value)
{
    return value * number + 1;
}

SEC("socket") int call(struct __sk_buff *skb)
{
    int found = sum(skb);
    return scaled(found) + scaled(skb->len);
}
