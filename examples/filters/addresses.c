/* says: addresses.c: the constant names has an address, at byte 0 of \.(data\.rel\.ro|rodata|data): a map's value has numbers */
/* A table of strings: it has their addresses, and a map has numbers only. */
#include "filter.h"

static const char *const names[4] = { "a frame", "b frame", "c frame", "d frame" };

SEC("xdp") int addresses(struct xdp_md *context)
{
	__u8 *p = BEGIN(context);
	if ((void *)(p + 1) > END(context))
		return XDP_PASS;
	return names[p[0] & 3][0] == 'c' ? XDP_DROP : XDP_PASS;
}
