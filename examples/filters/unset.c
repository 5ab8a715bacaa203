/* refused V1 */
/* gcc: says: it does not compile */
/* A variable that one path does not set: clang leaves its register out there. */
#include "filter.h"

SEC("xdp") int unset(struct xdp_md *context)
{
	int answer;

	if (context->ingress_ifindex == 1)
		asm volatile("%0 = 1" : "=r"(answer));
	else
		asm volatile("" : "=r"(answer));
	return answer + 1;
}
