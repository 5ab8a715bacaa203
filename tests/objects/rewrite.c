/* Addresses exchanged, the time to live counted down, and the checksum of the header made good. */
#include "filter.h"

static __u16 folded(__u32 sum)
{
    sum = (sum & 0xffff) + (sum >> 16);
    return (sum & 0xffff) + (sum >> 16);
}

SEC("xdp") int program(struct xdp_md *context)
{
    BEGIN(packet, context);
    __u8 address[6];
    __builtin_memcpy(address, packet, 6);
    __builtin_memcpy(packet, packet + 6, 6);
    __builtin_memcpy(packet + 6, address, 6);
    if (packet[22] <= 1)
        return XDP_DROP;
    packet[22]--;
    *(__u16 *)(packet + 24) = 0;
    __u32 sum = 0;
    for (int at = 14; at < 34; at += 2)
        sum += *(__u16 *)(packet + at);
    *(__u16 *)(packet + 24) = ~folded(sum);
    return XDP_TX;
}
