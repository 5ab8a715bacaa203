/* ok: 8 DROP */
/* Two programs in a section, of which one is named. */
/* words: --program second */
#include "filter.h"

SEC("xdp") int first(struct xdp_md *context)
{
	return XDP_PASS;
}

SEC("xdp") int second(struct xdp_md *context)
{
	return XDP_DROP;
}
