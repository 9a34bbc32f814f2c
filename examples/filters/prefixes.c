/* Networks of IPv4, the longest prefix first, in a table that a loop looks through. */
#include "filters.h"

struct prefix {
    u32 address, mask;
    u64 packets;
};

struct prefix prefixes[6] = {
    { 0xc0000205, 0xffffffff }, { 0xc0000200, 0xffffff00 }, { 0xc6336400, 0xffffff00 },
    { 0x0a000000, 0xff000000 }, { 0xac100000, 0xfff00000 }, { 0, 0 },
};

SEC("socket") int match(struct __sk_buff *skb)
{
    u32 source;
    if (skb->protocol != bpf_htons(ETH_P_IP) || bpf_skb_load_bytes(skb, ETH_HLEN + 12, &source, sizeof source))
        return 0;
    source = bpf_ntohl(source);
#pragma clang loop unroll(disable)
    for (int at = 0; at < 6; at++)
        if ((source & prefixes[at].mask) == prefixes[at].address) {
            prefixes[at].packets += 1;
            return at + 1;
        }
    return 0;
}
