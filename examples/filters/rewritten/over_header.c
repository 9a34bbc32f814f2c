/* Lengths of 60 bytes and more in steps of 64: signed numbers, whose comparisons the compiler leaves signed. */
#include "../filters.h"

u64 steps[16];

SEC("socket") int count_steps(struct __sk_buff *skb)
{
    int length = skb->len, step = (length - 60) >> 6;
    if (length < 60)
        step = 0;
    if (step < 0 || step >= 16)
        return -1;
    steps[step] += 1;
    return steps[step] > 5;
}
