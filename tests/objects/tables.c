/* Constants in memory: tables, static and not, a string, an array with its first values, and a switch of which compilers
   make a table. */
#include "filter.h"
static const __u32 weights[8] = {3, 1, 4, 1, 5, 9, 2, 6};
const __u64 powers[4] = {10, 100, 1000, 10000};
const __u16 wide[64] = {[0] = 1, [7] = 700, [63] = 6300};
static const char text[] = "a string of some length";
__u32 count;

static NOINLINE __u32 chosen(__u32 kind)
{
    switch (kind) {
    case 0: return 31;
    case 1: return 7;
    case 2: return 200;
    case 3: return 16;
    case 4: return 5;
    case 5: return 91;
    case 6: return 44;
    default: return 1;
    }
}

SEC("xdp") int program(struct xdp_md *context)
{
    BEGIN(packet, context);
    __u8 first[16] = {9, 8, 7, 6, 5, 4, 3, 2, 1, 0, 11, 12, 13, 14, 15, 16};
    const char *word = packet[7] & 1 ? "hello" : "world";
    __builtin_memcpy(packet + 16, first, sizeof first);
    packet[0] = weights[packet[0] & 7];
    packet[1] = powers[packet[1] & 3] >> 2;
    packet[2] = wide[packet[2] & 63] + wide[7];
    packet[3] = text[packet[3] & 15];
    packet[4] = word[packet[4] & 3];
    packet[5] = chosen(packet[5] & 7) + ++count;
    return packet[0] > 3 ? XDP_PASS : XDP_TX;
}
