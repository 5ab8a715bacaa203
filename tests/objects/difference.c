/* A helper that xdpvm does not have. */
/* refused: V14 */
#include "filter.h"
HELPER(28, __s64, csum_diff, const void *from, __u32 from_size, const void *to, __u32 to_size, __u32 seed);

SEC("xdp") int program(struct xdp_md *context)
{
    BEGIN(packet, context);
    __u32 old = packet[0], new = packet[1];
    return csum_diff(&old, sizeof old, &new, sizeof new, 0) & 1 ? XDP_PASS : XDP_DROP;
}
