/* refused V4 */
/* An array on the stack with an index that varies: a place on the stack has to be a constant here. The kernel accepts it. */
#include "filter.h"

SEC("xdp") int buckets(struct xdp_md *context)
{
	__u8 *p = BEGIN(context);
	__u32 h[12] = { 0 };
	if ((void *)(p + 2) > END(context))
		return XDP_PASS;
	__u32 k = p[0];
	if (k < 12)
		h[k]++;
	k = p[1];
	if (k < 12)
		h[k] += 3;
	return h[3] + h[5] > 4 ? XDP_DROP : XDP_PASS;
}
