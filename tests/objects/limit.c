/* So many frames in a while, by the time of each frame. */
#include "filter.h"
#include "maps.h"
struct bucket {
    __u64 begin, count;
};
MAP(buckets, BPF_MAP_TYPE_HASH, __u32, struct bucket, 4);

SEC("xdp") int program(struct xdp_md *context)
{
    BEGIN(packet, context);
    __u32 sender = packet[23];
    __u64 time = now();
    struct bucket *bucket = look_up(&buckets, &sender);
    if (!bucket) {
        struct bucket first = {.begin = time, .count = 1};
        return update(&buckets, &sender, &first, 0) ? XDP_ABORTED : XDP_PASS;
    }
    if (time - bucket->begin > 10) {
        bucket->begin = time;
        bucket->count = 0;
    }
    packet[0] = ++bucket->count;
    return bucket->count > 2 ? XDP_DROP : XDP_PASS;
}
