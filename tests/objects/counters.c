/* Counters in an array and in a variable, by atomic additions. */
#include "filter.h"
#include "maps.h"
MAP(counts, BPF_MAP_TYPE_ARRAY, __u32, __u64, 4);
__u64 all;

SEC("xdp") int program(struct xdp_md *context)
{
    BEGIN(packet, context);
    __u32 kind = packet[23] & 3;
    __u64 *count = look_up(&counts, &kind);
    if (!count)
        return XDP_ABORTED;
    __sync_fetch_and_add(count, 3);
    __sync_fetch_and_add(&all, *count);
    packet[0] = *count;
    packet[1] = all;
    return XDP_PASS;
}
