/* A header behind a header whose length the packet says. */
/* bug: V9 */
#include "filter.h"

SEC("xdp") int program(struct xdp_md *context)
{
    BEGIN(packet, context);
    unsigned char *end = (unsigned char *)(long)context->data_end;
    __u32 length = (packet[14] & 15) * 4;
    if (length < 20)
        return XDP_DROP;
    unsigned char *inner = packet + 14 + length;
#ifdef BUG
    if (inner > end)
#else
    if (inner + 8 > end)
#endif
        return XDP_PASS;
    packet[0] = inner[7];
    packet[1] = *(__u16 *)(inner + 2) >> 3;
    return inner[0] & 1 ? XDP_TX : XDP_PASS;
}
