/* ok: 7 PASS, 1 DROP */
/* words: --lru-as-hash */
/* A map that drops its oldest keys, which becomes a hash map that refuses new ones. */
#include "filter.h"

struct {
	__uint(type, BPF_MAP_TYPE_LRU_HASH);
	__uint(max_entries, 3);
	__type(key, __u16);
	__type(value, __u64);
} kinds SEC(".maps");

SEC("xdp") int oldest(struct xdp_md *context)
{
	struct ethhdr *ethernet = BEGIN(context);
	if ((void *)(ethernet + 1) > END(context))
		return XDP_PASS;
	__u16 kind = ethernet->h_proto;
	__u64 one = 1, *count = bpf_map_lookup_elem(&kinds, &kind);
	if (count)
		++*count;
	else if (bpf_map_update_elem(&kinds, &kind, &one, 0))
		return XDP_DROP;
	return XDP_PASS;
}
