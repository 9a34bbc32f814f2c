#include "bpf.h"
static __attribute__((always_inline)) int inner(__u32 number)
{
    __u32 *null = 0;
    asm volatile("" : "+r"(null));
    return *null + number;
}
SEC("socket") int first(struct __sk_buff *skb)
{
    return skb->mark;
}
SEC("socket") int second(struct __sk_buff *skb)
{
    __u32 mark = skb->mark;
    return inner(mark);
}
