/* The labels of a DNS name behind Ethernet, IPv4, UDP and the header of DNS, byte by byte: at most BYTES of it. */
#include "filter.h"
#ifndef BYTES
#define BYTES 32
#endif

SEC("xdp") int program(struct xdp_md *context)
{
    BEGIN(packet, context);
    unsigned char *end = (unsigned char *)(long)context->data_end, *at = packet + 54;
    __u32 left = 0, sum = 0, labels = 0;
    for (int byte = 0; byte < BYTES; byte++) {
        if (at + 1 > end)
            return XDP_DROP;
        __u32 value = *at++;
        if (left) {
            sum = sum * 31 + value;
            left--;
            continue;
        }
        if (value == 0)
            break;
        if (value > 63)
            return XDP_ABORTED;
        left = value;
        labels++;
    }
    return labels > 2 && sum & 1 ? XDP_DROP : XDP_PASS;
}
