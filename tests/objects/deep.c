/* Nine functions, each called by the one before it. */
/* refused: V16 */
#include "filter.h"
#define FUNCTION(name, next)                                                                                                   \
    static NOINLINE __u32 name(__u32 given)                                                                                    \
    {                                                                                                                          \
        return next(given + 1) * 3;                                                                                            \
    }
static NOINLINE __u32 last(__u32 given)
{
    return given ^ 5;
}
FUNCTION(eighth, last)
FUNCTION(seventh, eighth)
FUNCTION(sixth, seventh)
FUNCTION(fifth, sixth)
FUNCTION(fourth, fifth)
FUNCTION(third, fourth)
FUNCTION(second, third)

SEC("xdp") int program(struct xdp_md *context)
{
    BEGIN(packet, context);
    return second(packet[0]) & 1 ? XDP_PASS : XDP_DROP;
}
