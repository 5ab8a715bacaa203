/* refused V9 */
/* A byte behind the last one that was tested. */
#include "filter.h"

SEC("xdp") int bounds(struct xdp_md *context)
{
	__u8 *data = BEGIN(context);

	if ((void *)(data + 14) > END(context))
		return XDP_PASS;
	return data[14] == 0x45 ? XDP_DROP : XDP_PASS;
}
