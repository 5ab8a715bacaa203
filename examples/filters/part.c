/* refused V7 */
/* A part of a variable is read that was never written. */
#include "filter.h"

SEC("xdp") int part(struct xdp_md *context)
{
	volatile struct {
		__u32 a, b;
	} pair;

	pair.a = context->ingress_ifindex;
	return pair.b ? XDP_DROP : XDP_PASS;
}
