/* refused V15 */
/* A key with three bytes of padding that are never written. */
#include "filter.h"

struct key {
	__u32 source;
	__u8 protocol;
};

struct {
	__uint(type, BPF_MAP_TYPE_HASH);
	__uint(max_entries, 16);
	__type(key, struct key);
	__type(value, __u64);
} flows SEC(".maps");

SEC("xdp") int padding(struct xdp_md *context)
{
	struct iphdr *ip = ipv4(BEGIN(context), END(context));
	if (!ip)
		return XDP_PASS;
	struct key key;
	key.source = ip->saddr;
	key.protocol = ip->protocol;
	return bpf_map_lookup_elem(&flows, &key) ? XDP_DROP : XDP_PASS;
}
