/* Headers of extensions, at most six, each with the next one's kind and its own length. */
#include "filter.h"

SEC("xdp") int program(struct xdp_md *context)
{
    BEGIN(packet, context);
    unsigned char *end = (unsigned char *)(long)context->data_end, *at = packet + 14;
    __u32 kind = packet[13], count = 0;
    for (; count < 6; count++) {
        if (kind == 6 || kind == 17 || at + 8 > end)
            break;
        kind = at[0];
        at += (at[1] & 3) * 8 + 8;
    }
    packet[0] = kind;
    packet[1] = count;
    return kind == 6 ? XDP_PASS : kind == 17 ? XDP_TX : XDP_DROP;
}
