/* Two programs in sections of their own, with a variable each, and one section more that is not asked for. */
/* words: --section xdp/second */
#include "filter.h"
__u32 ones, twos;

SEC("xdp/first") int other(struct xdp_md *context)
{
    ones++;
    return ones & 1 ? XDP_DROP : XDP_PASS;
}

SEC("xdp/second") int program(struct xdp_md *context)
{
    BEGIN(packet, context);
    twos += 2;
    packet[0] = twos;
    packet[1] = ones;
    return XDP_PASS;
}
