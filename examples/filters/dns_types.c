/* Questions of DNS by their type: the walk over the labels has a bound, and a switch names the types. */
#include "filters.h"

enum type { A, NS, CNAME, SOA, MX, TXT, AAAA, SRV, HTTPS, OTHER };

struct {
    __uint(type, BPF_MAP_TYPE_ARRAY);
    __type(key, u32);
    __type(value, u64);
    __uint(max_entries, OTHER + 1);
} types SEC(".maps");

static __always_inline enum type named(u16 type)
{
    switch (type) {
    case 1:
        return A;
    case 2:
        return NS;
    case 5:
        return CNAME;
    case 6:
        return SOA;
    case 15:
        return MX;
    case 16:
        return TXT;
    case 28:
        return AAAA;
    case 33:
        return SRV;
    case 65:
        return HTTPS;
    }
    return OTHER;
}

SEC("socket") int count_types(struct __sk_buff *skb)
{
    u8 first, protocol, length;
    u16 port, type;
    if (skb->protocol != bpf_htons(ETH_P_IP) || load_byte(skb, ETH_HLEN, &first) || load_byte(skb, ETH_HLEN + 9, &protocol))
        return 0;
    u32 udp = ETH_HLEN + (first & 15) * 4;
    if (protocol != IPPROTO_UDP || load_half(skb, udp + 2, &port) || port != 53)
        return 0;
    u32 at = udp + 20;
    for (int label = 0; label < 20; label++) {
        if (load_byte(skb, at, &length) || length > 63)
            return 0;
        at += 1 + length;
        if (length == 0) {
            if (load_half(skb, at, &type))
                return 0;
            count_at(&types, named(type));
            return -1;
        }
    }
    return 0;
}
