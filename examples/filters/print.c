/* refused V14 */
/* A string for the kernel's trace, by helper 6. The kernel accepts it. */
#include "filter.h"

HELPER(6, long, bpf_trace_printk, const char *form, __u32 size, ...);
static const char form[] = "frame on %d\n";

SEC("xdp") int print(struct xdp_md *context)
{
	bpf_trace_printk(form, sizeof form, context->ingress_ifindex);
	return XDP_PASS;
}
