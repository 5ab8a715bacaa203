/* ok: 1 DROP, 7 PASS */
/* header.c with a barrier: the compiler may not take the index for a pointer any more. */
#include "filter.h"

#define barrier_var(variable) asm volatile("" : "+r"(variable))

SEC("xdp") int header(struct xdp_md *context)
{
	void *end = END(context);
	struct iphdr *ip = ipv4(BEGIN(context), end);
	if (!ip)
		return XDP_PASS;
	__u16 *at = (void *)ip;
	__u32 sum = 0;

	for (int i = 0; i < ip->ihl * 2; i++) {
		if ((void *)(at + i + 1) > end)
			return XDP_PASS;
		sum += at[i];
		barrier_var(i);
	}
	return (sum & 0xffff) + (sum >> 16) == 0xffff ? XDP_PASS : XDP_DROP;
}
