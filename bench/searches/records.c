/* Records of a type, a length and a value behind a header, at most OUTER; one of type 1 is a group of at most INNER records. */
#include "filter.h"
#ifndef OUTER
#define OUTER 4
#define INNER 4
#endif

SEC("xdp") int program(struct xdp_md *context)
{
    BEGIN(packet, context);
    unsigned char *end = (unsigned char *)(long)context->data_end, *at = packet + 14;
    __u32 found = 0;
    for (int outer = 0; outer < OUTER; outer++) {
        if (at + 2 > end)
            break;
        __u32 type = at[0], length = at[1];
        at += 2;
        if (type == 0)
            break;
        if (type == 1) {
            unsigned char *inside = at;
            for (int inner = 0; inner < INNER; inner++) {
                if (inside + 2 > end)
                    break;
                if (inside[0] == 7)
                    found++;
                inside += 2 + (inside[1] & 15);
            }
        }
        at += length & 31;
    }
    return found ? XDP_DROP : XDP_PASS;
}
