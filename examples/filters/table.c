/* ok: 3 DROP, 5 PASS */
/* A table of constants: an array with one key, which begins with them. */
#include "filter.h"

static const __u32 weights[8] = { 3, 1, 4, 1, 5, 9, 2, 6 };

SEC("xdp") int table(struct xdp_md *context)
{
	__u8 *p = BEGIN(context);
	if ((void *)(p + 24) > END(context))
		return XDP_PASS;
	return (weights[p[12] & 7] ^ weights[p[23] & 7]) == 1 ? XDP_DROP : XDP_PASS;
}
