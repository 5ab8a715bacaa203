/* Labels behind a header, each with its length before it: at most eight, and each at most seven bytes. */
/* bug: V9 */
#include "filter.h"
#include "maps.h"

SEC("xdp") int program(struct xdp_md *context)
{
    BEGIN(packet, context);
    unsigned char *end = (unsigned char *)(long)context->data_end, *at = packet + 14;
    __u32 sum = 0;
    for (int label = 0; label < 8; label++) {
#ifndef BUG
        if (at + 1 > end)
            break;
#endif
        __u32 length = *at & 7;
        if (!length)
            break;
        sum += length;
        at += length + 1;
    }
    packet[0] = sum;
    return sum & 1 ? XDP_PASS : XDP_TX;
}
