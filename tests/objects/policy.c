/* A bitmap of 4,096 numbers as the value of an array, indexed by twelve bits of the packet. */
/* bug: V10 */
#include "filter.h"
#include "maps.h"
struct bits {
    __u8 bytes[512];
};
MAP(allowed, BPF_MAP_TYPE_ARRAY, __u32, struct bits, 1);
#ifdef BUG
#define MASK 0x1fff
#else
#define MASK 0x0fff
#endif

SEC("xdp") int program(struct xdp_md *context)
{
    BEGIN(packet, context);
    __u32 zero = 0, number = __builtin_bswap16(*(__u16 *)(packet + 2)) & MASK;
    struct bits *bits = look_up(&allowed, &zero);
    if (!bits)
        return XDP_ABORTED;
    packet[0] = bits->bytes[number >> 3] >> (number & 7) & 1;
    bits->bytes[number >> 3] |= 1 << (number & 7);
    return packet[0] ? XDP_DROP : XDP_PASS;
}
