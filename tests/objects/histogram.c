/* An array on the stack that a byte of the packet indexes. */
/* refused: V4 */
#include "filter.h"

SEC("xdp") int program(struct xdp_md *context)
{
    BEGIN(packet, context);
    __u8 counts[16] = {0};
    for (int at = 0; at < 8; at++)
        counts[packet[at] & 15]++;
    return counts[packet[8] & 15] ? XDP_DROP : XDP_PASS;
}
