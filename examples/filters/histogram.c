/* refused V3 */
/* gcc: refused V4 */
/* An array on the stack, to whose begin clang joins the index by `|=`. The kernel refuses it too. */
#include "filter.h"

SEC("xdp") int histogram(struct xdp_md *context)
{
	__u8 *p = BEGIN(context), h[8] = { 0 };
	if ((void *)(p + 8) > END(context))
		return XDP_PASS;
	for (int i = 0; i < 8; i++)
		h[p[i] & 7]++;
	return h[3] > 4 ? XDP_DROP : XDP_PASS;
}
