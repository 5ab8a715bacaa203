/* ok: 1 TX, 7 PASS */
/* gcc: says: cookie.c: __bswapsi2 is called in cookie, and the object does not have it */
/* Answers a SYN by a hash of the flow and of the time, in a function that is called. */
#include "filter.h"

static NOINLINE __u32 hash(__u32 a, __u32 b, __u32 c)
{
	a -= b;
	a -= c;
	a ^= c >> 13;
	b -= c;
	b -= a;
	b ^= a << 8;
	c -= a;
	c -= b;
	return c ^ b >> 13;
}

SEC("xdp") int cookie(struct xdp_md *context)
{
	void *end = END(context);
	struct iphdr *ip = ipv4(BEGIN(context), end);
	if (!ip || ip->ihl != 5 || ip->protocol != IPPROTO_TCP)
		return XDP_PASS;
	struct tcphdr *tcp = (void *)(ip + 1);
	if ((void *)(tcp + 1) > end || !tcp->syn || tcp->ack)
		return XDP_PASS;
	__u32 number = hash(ip->saddr, ip->daddr, (__u32)tcp->source << 16 | tcp->dest) + (__u32)(bpf_ktime_get_ns() >> 36);
	__u32 address = ip->saddr;
	__u16 port = tcp->source;

	ip->saddr = ip->daddr;
	ip->daddr = address;
	tcp->source = tcp->dest;
	tcp->dest = port;
	tcp->ack_seq = be32(be32(tcp->seq) + 1);
	tcp->seq = be32(number);
	tcp->ack = 1;
	return XDP_TX;
}
