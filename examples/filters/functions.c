/* ok: 8 PASS */
/* Seven functions that call one another, and a global one that nobody calls. */
#include "filter.h"

static NOINLINE int f6(int x) { return x * 7 + 6; }
static NOINLINE int f5(int x) { return f6(x ^ 5) + x; }
static NOINLINE int f4(int x) { return f5(x ^ 4) * x; }
static NOINLINE int f3(int x) { return f4(x ^ 3) - x; }
static NOINLINE int f2(int x) { return f3(x ^ 2) + x; }
NOINLINE int f1(int x) { return f2(x ^ 1) ^ x; }
int unused(int x) { return f3(x) + 1; }

SEC("xdp") int functions(struct xdp_md *context)
{
	return f1(context->ingress_ifindex) == 12345678 ? XDP_DROP : XDP_PASS;
}
