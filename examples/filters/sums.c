/* refused V14 */
/* A helper that is not there: differences of checksums. The kernel accepts it. */
#include "filter.h"

HELPER(28, long, bpf_csum_diff, __be32 *from, __u32 from_size, __be32 *to, __u32 to_size, __u32 seed);

SEC("xdp") int sums(struct xdp_md *context)
{
	__be32 words[2] = { 1, context->ingress_ifindex };
	return bpf_csum_diff(0, 0, words, 8, 0) & 1 ? XDP_DROP : XDP_PASS;
}
