/* Static variables and others of several sizes in .bss, one of them an array that packets index. */
#include "filter.h"
static __u8 flag;
static __u16 shorts[5];
__u32 words[7];
static __u64 total;
__u8 last;

SEC("xdp") int program(struct xdp_md *context)
{
    BEGIN(packet, context);
    flag ^= 1;
    shorts[3] += 2;
    words[5] += packet[2];
    total += words[5] + shorts[3];
    last = packet[3];
    packet[0] = flag;
    packet[1] = shorts[3] + shorts[2];
    packet[2] = words[5] + words[4];
    packet[3] = total;
    packet[4] = last;
    return flag ? XDP_PASS : XDP_TX;
}
