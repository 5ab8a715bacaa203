/* What is before the packet. */
/* refused: V8 */
#include "filter.h"

SEC("xdp") int program(struct xdp_md *context)
{
    return context->data_meta == context->data ? XDP_PASS : XDP_DROP;
}
