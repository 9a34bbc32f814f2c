/* A filter that is rejected: the index is below 32, and the table has 16 numbers. */
#include "../filters/filters.h"

int table[16];

SEC("socket") int keep_by_length(struct __sk_buff *skb)
{
    if (skb->protocol != bpf_htons(ETH_P_IP))
        return 0;
    return table[skb->len & 31];
}
