/* ok: 3 DROP, 5 PASS */
/* A dense switch, of which clang makes a table of constants. */
#include "filter.h"

SEC("xdp") int choice(struct xdp_md *context)
{
	struct iphdr *ip = ipv4(BEGIN(context), END(context));
	if (!ip)
		return XDP_PASS;
	switch (ip->protocol) {
	case 0: return XDP_ABORTED;
	case 1: return XDP_DROP;
	case 2: return XDP_TX;
	case 3: return XDP_ABORTED;
	case 4: return XDP_TX;
	case 5: return XDP_ABORTED;
	case 6: return XDP_DROP;
	case 7: return XDP_TX;
	}
	return XDP_PASS;
}
