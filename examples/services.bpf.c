/* Drops TCP connections (a SYN without an ACK) to ports other than 22, 80 and 443; passes all other frames. */
#include <linux/bpf.h>
#include <linux/if_ether.h>
#include <linux/in.h>
#include <linux/ip.h>
#include <linux/tcp.h>

#define big_endian(x) __builtin_bswap16(x)

__attribute__((section("xdp"), used)) int services(struct xdp_md *context)
{
	void *data = (void *)(long)context->data;
	void *end = (void *)(long)context->data_end;

	struct ethhdr *ethernet = data;
	if ((void *)(ethernet + 1) > end || ethernet->h_proto != big_endian(ETH_P_IP))
		return XDP_PASS;

	struct iphdr *ip = (void *)(ethernet + 1);
	if ((void *)(ip + 1) > end || ip->protocol != IPPROTO_TCP || ip->ihl < 5)
		return XDP_PASS;

	struct tcphdr *tcp = (void *)ip + 4 * ip->ihl; /* after the options */
	if ((void *)(tcp + 1) > end || !tcp->syn || tcp->ack)
		return XDP_PASS;

	switch (big_endian(tcp->dest)) {
	case 22:
	case 80:
	case 443:
		return XDP_PASS;
	}
	return XDP_DROP;
}
