/* refused V4 */
/* A number of 32 bits without a limit is added to a pointer. */
#include "filter.h"

SEC("xdp") int offset(struct xdp_md *context)
{
	__u8 *data = BEGIN(context);

	data += context->ingress_ifindex;
	if ((void *)(data + 1) > END(context))
		return XDP_PASS;
	return data[0] ? XDP_DROP : XDP_PASS;
}
