/* Global variables that begin as zeros, not static, at several places of .bss: each is its own. */
#include "filter.h"
__u64 first, second, third;
struct {
    __u32 small;
    __u64 row[3];
} record;

SEC("xdp") int program(struct xdp_md *context)
{
    BEGIN(packet, context);
    second++;
    third += packet[0];
    first = second + third;
    record.small += 3;
    record.row[1] += packet[1];
    packet[0] = first;
    packet[1] = second;
    packet[2] = third;
    packet[3] = record.small;
    packet[4] = record.row[1];
    packet[5] = record.row[0] + record.row[2];
    return first & 1 ? XDP_PASS : XDP_TX;
}
