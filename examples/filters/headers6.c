/* ok: 1 DROP, 7 PASS */
/* Drops UDP over IPv6, behind up to eight extension headers. */
#include "filter.h"

SEC("xdp") int headers6(struct xdp_md *context)
{
	void *data = BEGIN(context), *end = END(context);
	struct ethhdr *ethernet = data;
	struct ipv6hdr *ip = (void *)(ethernet + 1);
	if ((void *)(ip + 1) > end || ethernet->h_proto != be16(ETH_P_IPV6))
		return XDP_PASS;
	__u8 next = ip->nexthdr, *at = (void *)(ip + 1);

	for (int i = 0; i < 8; i++) {
		if (next == IPPROTO_UDP)
			return XDP_DROP;
		if (next != 0 && next != 43 && next != 60)
			break;
		if (at + 8 > (__u8 *)end)
			break;
		next = at[0];
		at += 8 * (1 + (__u32)at[1]);
	}
	return XDP_PASS;
}
