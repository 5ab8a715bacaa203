/* ok: 1 DROP, 7 PASS */
/* gcc: refused V13 */
/* Drops UDP whose payload sums to that of the letters a to h. */
#include "filter.h"

SEC("xdp") int payload(struct xdp_md *context)
{
	void *end = END(context);
	struct iphdr *ip = ipv4(BEGIN(context), end);
	if (!ip || ip->ihl != 5 || ip->protocol != IPPROTO_UDP)
		return XDP_PASS;
	struct udphdr *udp = (void *)(ip + 1);
	if ((void *)(udp + 1) > end)
		return XDP_PASS;
	__u8 *q = (void *)(udp + 1);
	__u32 sum = 0;

	for (int i = 0; i < 1400; i++) {
		if ((void *)(q + i + 1) > end)
			break;
		sum += q[i];
	}
	return sum == 804 ? XDP_DROP : XDP_PASS;
}
