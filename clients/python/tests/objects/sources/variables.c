/* Global variables of all sections, some seen by other files and some not. */

#include "bpf.h"

__u32 seen[4] = { 1, 2, 3, 4 };
static volatile __u64 total;
__u64 packets;
static const volatile __u32 least = 60;
const volatile char greeting[8] = "hello";
static __u32 own SEC(".data.own") = 5;
__u64 zeros SEC(".bss.more");

SEC("socket") int count(struct __sk_buff *skb)
{
    __sync_fetch_and_add(&packets, 1);
    total += skb->len;
    seen[3] += greeting[1];
    own += 1;
    zeros -= 1;
    return skb->len < least ? 0 : seen[3];
}

SEC("socket/text") int text(struct __sk_buff *skb)
{
    static volatile __u32 calls = 7;
    static const char words[] = "zero one two";
    const char *word = words;
    return word[skb->mark & 7] + calls;
}

SEC("socket/totals") int totals(struct __sk_buff *skb)
{
    return total;
}
