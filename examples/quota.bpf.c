/* Passes as many IPv4 frames of each protocol as a table says, and drops the rest; and passes no more
   than 100 of them in all. The table and the number that is left begin with values. */
#include <linux/bpf.h>
#include <linux/if_ether.h>
#include <linux/in.h>
#include <linux/ip.h>

#define big_endian(x) __builtin_bswap16(x)

static const __u32 quota[32] = { [IPPROTO_ICMP] = 1, [IPPROTO_TCP] = 3, [IPPROTO_UDP] = 1 };
static __u32 seen[32];
static __u32 left = 100;

__attribute__((section("xdp"), used)) int limited(struct xdp_md *context)
{
	void *data = (void *)(long)context->data;
	void *end = (void *)(long)context->data_end;

	struct ethhdr *ethernet = data;
	if ((void *)(ethernet + 1) > end || ethernet->h_proto != big_endian(ETH_P_IP))
		return XDP_PASS;

	struct iphdr *ip = (void *)(ethernet + 1);
	if ((void *)(ip + 1) > end)
		return XDP_PASS;

	__u32 kind = ip->protocol & 31;
	if (seen[kind] >= quota[kind] || !left)
		return XDP_DROP;
	seen[kind]++;
	left--;
	return XDP_PASS;
}
