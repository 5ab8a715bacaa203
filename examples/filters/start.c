/* ok: 8 PASS */
/* A variable that begins with a value: an array with one key, which begins with it. */
#include "filter.h"

volatile int threshold = 7;

SEC("xdp") int start(struct xdp_md *context)
{
	return context->ingress_ifindex > threshold ? XDP_DROP : XDP_PASS;
}
