/* Variables that begin with values, static and not, of several sizes and in several sections, beside some that begin as zeros. */
#include "filter.h"
static __u8 flag = 1;
static __u16 shorts[5] = {1, 2, 3, 4, 5};
__u32 words[7] = {70000, 1, 2, 3, 4, 5, 6};
static __u64 total = 0x123456789abcdef0;
__u64 early SEC(".data.early") = 77, late SEC(".data.early") = 78;
volatile const __u32 most = 9;
__u32 seen;
static struct {
    __u8 small;
    __u32 wide;
    __u64 row[3];
} record = {3, 4, {5, 6, 7}};

SEC("xdp") int program(struct xdp_md *context)
{
    BEGIN(packet, context);
    flag ^= 1;
    shorts[packet[0] & 3] += 2;
    words[5] += packet[2];
    total = total * 3 + words[5] + shorts[3];
    late += early++;
    record.row[1] += record.small + record.wide;
    if (++seen > most)
        return XDP_DROP;
    packet[0] = flag;
    packet[1] = shorts[packet[1] & 3] + shorts[4];
    packet[2] = words[5] + words[packet[3] & 3];
    packet[3] = total >> 32;
    packet[4] = late;
    packet[5] = early;
    packet[6] = record.row[1] + record.row[2];
    return flag ? XDP_PASS : XDP_TX;
}
