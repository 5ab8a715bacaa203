/* A loop whose end no limit of a number shows. */
/* refused: V18 */
#include "filter.h"

SEC("xdp") int program(struct xdp_md *context)
{
    BEGIN(packet, context);
    __u32 number = packet[0];
    while (number > 1)
        number = number & 1 ? 3 * number + 1 : number >> 1;
    return number ? XDP_PASS : XDP_DROP;
}
