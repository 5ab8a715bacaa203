/* Flows in a hash map: a key of several fields, a value that is counted in, and flows that end. */
/* bug: V15 */
#include "filter.h"
#include "maps.h"
struct key {
    __u32 source, target;
    __u8 protocol;
};
struct flow {
    __u64 bytes, frames;
};
MAP(flows, BPF_MAP_TYPE_HASH, struct key, struct flow, 8);

SEC("xdp") int program(struct xdp_md *context)
{
    BEGIN(packet, context);
    struct key key;
#ifndef BUG
    __builtin_memset(&key, 0, sizeof key);
#endif
    key.source = *(__u32 *)(packet + 26) & 0x0300ffff;
    key.target = *(__u32 *)(packet + 30);
    key.protocol = packet[23];
    struct flow *known = look_up(&flows, &key), first = {packet[17], 1};
    if (!known)
        return update(&flows, &key, &first, NOEXIST) ? XDP_DROP : XDP_PASS;
    known->bytes += packet[17];
    known->frames++;
    packet[0] = known->frames;
    packet[1] = known->bytes;
    if (known->frames == 3)
        delete(&flows, &key);
    return XDP_TX;
}
