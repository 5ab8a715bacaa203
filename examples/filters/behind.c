/* refused V9 */
/* A test before a length of 16 bits is added, and none after it. */
#include "filter.h"

SEC("xdp") int behind(struct xdp_md *context)
{
	__u8 *data = BEGIN(context);

	if ((void *)(data + 64) > END(context))
		return XDP_PASS;
	data += *(__u16 *)data;
	return data[0] == 0x45 ? XDP_DROP : XDP_PASS;
}
