/* A state for each sender, that goes on with the right byte and begins again with any other. */
/* bug: V11 */
#include "filter.h"
#include "maps.h"
MAP(states, BPF_MAP_TYPE_HASH, __u32, __u32, 16);

SEC("xdp") int program(struct xdp_md *context)
{
    BEGIN(packet, context);
    __u32 sender = packet[23], none = 0, *state = look_up(&states, &sender);
#ifndef BUG
    if (!state) {
        update(&states, &sender, &none, 0);
        state = look_up(&states, &sender);
        if (!state)
            return XDP_ABORTED;
    }
#endif
    switch (*state) {
    case 0: *state = packet[1] & 1 ? 1 : 0; break;
    case 1: *state = packet[1] & 2 ? 2 : 0; break;
    case 2: *state = packet[1] & 1 ? 3 : 0; break;
    default: return XDP_TX;
    }
    packet[0] = *state;
    return *state == 3 ? XDP_PASS : XDP_DROP;
}
