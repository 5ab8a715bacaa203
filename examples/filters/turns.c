/* refused V19 */
/* A loop with more turns than the verifier explores. */
#include "filter.h"

SEC("xdp") int turns(struct xdp_md *context)
{
	__u32 sum = context->ingress_ifindex;

	for (int i = 0; i < 1000000; i++) {
		sum = sum * 31 + i;
		asm volatile("" : "+r"(sum));
	}
	return sum & 1 ? XDP_DROP : XDP_PASS;
}
