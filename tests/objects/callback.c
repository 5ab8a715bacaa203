/* A function whose address a helper is given. */
/* no image: the address of turn is taken in program */
#include "filter.h"
HELPER(181, long, loop, __u32 turns, void *function, void *given, __u64 flags);

static NOINLINE long turn(__u32 index, void *given)
{
    *(__u64 *)given += index;
    return 0;
}

SEC("xdp") int program(struct xdp_md *context)
{
    __u64 sum = 0;
    loop(10, turn, &sum, 0);
    return sum & 1 ? XDP_PASS : XDP_DROP;
}
