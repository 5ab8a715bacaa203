/* The length of the packet as the difference of two pointers. */
/* refused: V3 */
#include "filter.h"

SEC("xdp") int program(struct xdp_md *context)
{
    void *data = (void *)(long)context->data, *end = (void *)(long)context->data_end;
    return end - data > 60 ? XDP_DROP : XDP_PASS;
}
