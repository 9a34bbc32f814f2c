/* Frames by the kind of their destination: broadcast, IPv4 multicast, IPv6 multicast, another group, or one station. */
#include "filters.h"

enum kind { STATION, BROADCAST, IPV4_GROUP, IPV6_GROUP, GROUP };

struct {
    __uint(type, BPF_MAP_TYPE_ARRAY);
    __type(key, u32);
    __type(value, u64);
    __uint(max_entries, 5);
} kinds SEC(".maps");

static __noinline u32 kind_of(const u8 *mac)
{
    if (!(mac[0] & 1))
        return STATION;
    if (mac[0] == 0xff && mac[1] == 0xff && mac[2] == 0xff && mac[3] == 0xff && mac[4] == 0xff && mac[5] == 0xff)
        return BROADCAST;
    if (mac[0] == 1 && mac[1] == 0 && mac[2] == 0x5e)
        return IPV4_GROUP;
    return mac[0] == 0x33 && mac[1] == 0x33 ? IPV6_GROUP : GROUP;
}

SEC("socket") int count_kinds(struct __sk_buff *skb)
{
    u8 mac[6];
    if (bpf_skb_load_bytes(skb, 0, mac, sizeof mac))
        return 0;
    u32 kind = kind_of(mac);
    count_at(&kinds, kind);
    return kind == STATION ? 0 : -1;
}
