/* refused V3 */
/* The frame's length as a number: pointers into a packet cannot be subtracted here. The kernel accepts it. */
#include "filter.h"

SEC("xdp") int length(struct xdp_md *context)
{
	return END(context) - BEGIN(context) < 60 ? XDP_DROP : XDP_PASS;
}
