/* A hash of twenty bytes with more values than registers, products of 64 bits and rotations. */
#include "filter.h"
#define TURNED(value, by) ((value) << (by) | (value) >> (64 - (by)))

SEC("xdp") int program(struct xdp_md *context)
{
    BEGIN(packet, context);
    __u64 a = 1, b = 2, c = 3, d = 4, e = 5, f = 6, g = 7, h = 8;
    for (int at = 14; at < 34; at += 4) {
        a = (a ^ packet[at]) * 0x9e3779b97f4a7c15;
        b = TURNED(b + a, 13) ^ packet[at + 1];
        c = (c + b) * 31;
        d = TURNED(d ^ c, 29) + packet[at + 2];
        e += d * 7;
        f ^= TURNED(e, 41);
        g = g * f + packet[at + 3];
        h = (h - g) ^ a;
    }
    __u64 value = a ^ b ^ c ^ d ^ e ^ f ^ g ^ h;
    for (int at = 0; at < 8; at++)
        packet[at] = value >> (8 * at);
    return value >> 63 ? XDP_PASS : XDP_TX;
}
