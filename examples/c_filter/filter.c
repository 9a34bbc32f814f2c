/* Keeps DNS queries: UDP over IPv4 over Ethernet, to port 53. A socket filter returns how many bytes of the packet to keep, so
 * the result is the packet's length for these and 0 for all others. The map of descriptor 3 counts those that are kept. */

#include <bpfhost/filter.h>

struct ethernet {
    unsigned char destination[6], source[6];
    unsigned short type;
};

struct ipv4 {
    unsigned char version_and_words, service;
    unsigned short length, identification, fragment;
    unsigned char hops, protocol;
    unsigned short checksum;
    unsigned int source, destination;
};

struct udp {
    unsigned short source, destination, length, checksum;
};

#define IPV4 0x0800
#define UDP 17
#define DNS 53
#define FRAGMENT_OFFSET 0x1fff

/* A number of 16 bits as packets have it, the highest byte first. */
#define NETWORK(number) __builtin_bswap16(number)

__attribute__((section("socket"), used)) unsigned int keep_dns(struct __sk_buff *skb)
{
    struct ethernet ethernet;
    struct ipv4 ip;
    struct udp udp;
    if (bpf_skb_load_bytes(skb, 0, &ethernet, sizeof ethernet) || ethernet.type != NETWORK(IPV4))
        return 0;
    if (bpf_skb_load_bytes(skb, sizeof ethernet, &ip, sizeof ip) || ip.protocol != UDP)
        return 0;
    if (ip.fragment & NETWORK(FRAGMENT_OFFSET))
        return 0;
    unsigned int ip_length = (ip.version_and_words & 15) * 4;
    if (bpf_skb_load_bytes(skb, sizeof ethernet + ip_length, &udp, sizeof udp) || udp.destination != NETWORK(DNS))
        return 0;

    unsigned int index = 0;
    unsigned long *kept = bpf_map_lookup_elem(MAP(3), &index);
    if (kept)
        *kept += 1;
    return skb->len;
}
