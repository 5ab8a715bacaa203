/* ok: 8 TX */
/* Global variables that begin as zeros; addresses of the frame are exchanged. */
#include "filter.h"

static __u64 frames, bytes;

SEC("xdp") int counters(struct xdp_md *context)
{
	void *end = END(context);
	struct ethhdr *ethernet = BEGIN(context);
	if ((void *)(ethernet + 1) > end)
		return XDP_DROP;
	__u8 other[6];

	frames++;
	bytes += ethernet->h_dest[5];
	__builtin_memcpy(other, ethernet->h_dest, 6);
	__builtin_memcpy(ethernet->h_dest, ethernet->h_source, 6);
	__builtin_memcpy(ethernet->h_source, other, 6);
	return XDP_TX;
}
