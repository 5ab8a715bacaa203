/* A map with a value for each processor, which becomes an array. */
#include "filter.h"
#include "maps.h"
MAP(counts, BPF_MAP_TYPE_PERCPU_ARRAY, __u32, __u64, 4);

SEC("xdp") int program(struct xdp_md *context)
{
    BEGIN(packet, context);
    __u32 kind = packet[23] & 3;
    __u64 *count = look_up(&counts, &kind);
    if (!count)
        return XDP_ABORTED;
    *count += packet[0];
    packet[0] = *count;
    return XDP_PASS;
}
