/* ok: 2 TX, 6 PASS */
/* Sends TCP and UDP to one of eight receivers: their addresses stand in an array, and flows that are known in a hash map. */
#include "filter.h"

struct flow {
	__u32 source, target;
	__u16 from, to;
	__u32 protocol;
};

struct receiver {
	__u8 mac[6];
	__u16 unused;
	__u32 address;
	__u32 used;
};

struct {
	__uint(type, BPF_MAP_TYPE_ARRAY);
	__uint(max_entries, 8);
	__type(key, __u32);
	__type(value, struct receiver);
} receivers SEC(".maps");

struct {
	__uint(type, BPF_MAP_TYPE_HASH);
	__uint(max_entries, 4096);
	__type(key, struct flow);
	__type(value, __u32);
} flows SEC(".maps");

SEC("xdp") int balance(struct xdp_md *context)
{
	void *data = BEGIN(context), *end = END(context);
	struct iphdr *ip = ipv4(data, end);
	if (!ip || ip->ihl != 5 || (ip->protocol != IPPROTO_TCP && ip->protocol != IPPROTO_UDP))
		return XDP_PASS;
	struct udphdr *ports = (void *)(ip + 1);
	if ((void *)(ports + 1) > end)
		return XDP_PASS;
	struct flow flow = { ip->saddr, ip->daddr, ports->source, ports->dest, ip->protocol };
	__u32 *known = bpf_map_lookup_elem(&flows, &flow);
	__u32 chosen = known ? *known : ((flow.source ^ flow.from) * 2654435761u) >> 29;

	if (!known)
		bpf_map_update_elem(&flows, &flow, &chosen, BPF_ANY);
	struct receiver *to = bpf_map_lookup_elem(&receivers, &chosen);
	if (!to)
		return XDP_PASS;
	__builtin_memcpy(data, to->mac, 6);
	__u32 sum = (__u16)~ip->check + (__u16)~ip->daddr + (__u16)~(ip->daddr >> 16) + (__u16)to->address + (to->address >> 16);
	sum = (sum & 0xffff) + (sum >> 16);
	sum += sum >> 16;
	ip->check = ~sum;
	ip->daddr = to->address;
	__sync_fetch_and_add(&to->used, 1);
	return XDP_TX;
}
