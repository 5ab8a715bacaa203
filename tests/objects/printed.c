/* A helper that prints, with its words as a constant. */
/* refused: V14 */
#include "filter.h"
HELPER(6, long, print, const char *words, __u32 size, ...);
static const char words[] = "a frame of %d bytes";

SEC("xdp") int program(struct xdp_md *context)
{
    BEGIN(packet, context);
    print(words, sizeof words, packet[0]);
    return XDP_PASS;
}
