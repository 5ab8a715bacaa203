/* ok: 1 DROP, 7 PASS */
/* Drops what is in VLAN 5, behind one tag or two. */
#include "filter.h"

struct tag {
	__u16 control, kind;
};

SEC("xdp") int tags(struct xdp_md *context)
{
	void *end = END(context);
	struct ethhdr *ethernet = BEGIN(context);
	if ((void *)(ethernet + 1) > end)
		return XDP_PASS;
	__u16 kind = ethernet->h_proto;
	struct tag *tag = (void *)(ethernet + 1);

#pragma unroll
	for (int i = 0; i < 2; i++) {
		if (kind != be16(ETH_P_8021Q) && kind != be16(ETH_P_8021AD))
			return XDP_PASS;
		if ((void *)(tag + 1) > end)
			return XDP_PASS;
		if ((be16(tag->control) & 0xfff) == 5)
			return XDP_DROP;
		kind = tag->kind;
		tag++;
	}
	return XDP_PASS;
}
