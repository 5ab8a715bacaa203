/* Targets in an array, chosen by a hash of the sender; frames to one that is not set are dropped. */
#include "filter.h"
#include "maps.h"
struct target {
    __u8 address[6];
    __u16 weight;
};
MAP(targets, BPF_MAP_TYPE_ARRAY, __u32, struct target, 8);

SEC("xdp") int program(struct xdp_md *context)
{
    BEGIN(packet, context);
    __u32 source = *(__u32 *)(packet + 26), slot = (source * 2654435761u >> 29) & 7;
    struct target *target = look_up(&targets, &slot);
    if (!target)
        return XDP_ABORTED;
    if (!target->weight) {
        __builtin_memcpy(target->address, packet, 6);
        target->weight = packet[22] | 1;
        return XDP_DROP;
    }
    target->weight--;
    __builtin_memcpy(packet, target->address, 6);
    packet[6] = slot;
    return XDP_TX;
}
