/* Numbers below zero: comparisons, shifts, products, and divisions by what the packet has. */
#include "filter.h"

SEC("xdp") int program(struct xdp_md *context)
{
    BEGIN(packet, context);
    __s32 small = (__s8)packet[0], other = (__s8)packet[1];
    __s64 wide = (__s64)small * other - 1000;
    packet[0] = wide >> 3;
    packet[1] = small < other;
    packet[2] = (__u32)(wide + 100000) / (packet[2] | 1);
    packet[3] = (__u64)(wide + 100000) % (packet[3] | 1);
    packet[4] = wide < 0 ? -wide : wide;
    packet[5] = (__s16)(small * 300) >> 7;
    return wide < -1000 ? XDP_PASS : XDP_TX;
}
