/* refused V13 */
/* A pointer into the packet is compared with one that is not its end. */
#include "filter.h"

SEC("xdp") int order(struct xdp_md *context)
{
	__u8 *data = BEGIN(context), *other = data;

	if ((void *)(data + 64) > END(context))
		return XDP_PASS;
	data += data[0] & 15;
	asm volatile("" : "+r"(other));
	return data > other ? XDP_DROP : XDP_PASS;
}
