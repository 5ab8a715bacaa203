/* Functions of its own, static and not, which call one another and count in a global variable. */
#include "filter.h"
__u32 before, calls;

static NOINLINE __u32 folded(__u32 sum)
{
    calls++;
    return (sum & 0xffff) + (sum >> 16);
}

NOINLINE __u32 twice(__u32 sum)
{
    calls += 2;
    return folded(sum) + folded(sum + 70000);
}

SEC("xdp") int program(struct xdp_md *context)
{
    BEGIN(packet, context);
    __u32 sum = twice(packet[0] | packet[1] << 8 | packet[2] << 16) + folded(packet[3]);
    before += 1;
    packet[0] = sum;
    packet[1] = sum >> 8;
    packet[2] = calls;
    packet[3] = before;
    return XDP_PASS;
}
