/* Programs in sections of their own and in a shared one, a function that is called by none, and notes for loaders. */

#include "bpf.h"

/* Others may call it, so it is in .text too; it is inlined below. */
int doubled(int number)
{
    return number * 2;
}

SEC("socket/length") int length(struct __sk_buff *skb)
{
    return skb->len;
}

SEC("socket") int none(struct __sk_buff *skb)
{
    return 0;
}

SEC("socket") int mark(struct __sk_buff *skb)
{
    return doubled(skb->mark);
}

char _license[] SEC("license") = "GPL";
__u32 _version SEC("version") = 1;
