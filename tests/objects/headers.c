/* Headers of packets with some of their fields, whose places are recorded (CO-RE). */
/* gcc: CO-RE */
#include "filter.h"
#ifdef HOST
#include <linux/if_ether.h>
#include <linux/ip.h>
#else
typedef __u16 __be16;
struct ethhdr {
    __u16 h_proto;
} CORE;
struct iphdr {
    __u8 protocol;
    __u32 saddr;
    __u8 ttl;
} CORE;
#endif
__u32 seen;

SEC("xdp") int program(struct xdp_md *context)
{
    BEGIN(packet, context);
    struct ethhdr *frame = (struct ethhdr *)packet;
    struct iphdr *header = (struct iphdr *)(packet + 14);
    if (frame->h_proto != 8)
        return XDP_DROP;
    seen += header->protocol;
    packet[0] = seen;
    packet[1] = header->ttl;
    *(__u32 *)(packet + 2) = header->saddr;
    return header->protocol == 6 ? XDP_TX : XDP_PASS;
}
