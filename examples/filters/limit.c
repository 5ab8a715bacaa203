/* ok: 6 PASS, 2 DROP */
/* A bucket of two tokens for each source; one comes back in a second. */
#include "filter.h"

struct bucket {
	__u64 time;
	__u64 tokens;
};

struct {
	__uint(type, BPF_MAP_TYPE_HASH);
	__uint(max_entries, 1024);
	__type(key, __u32);
	__type(value, struct bucket);
} buckets SEC(".maps");

SEC("xdp") int limit(struct xdp_md *context)
{
	struct iphdr *ip = ipv4(BEGIN(context), END(context));
	if (!ip)
		return XDP_PASS;
	__u32 source = ip->saddr;
	__u64 now = bpf_ktime_get_ns();
	struct bucket fresh = { now, 1 }, *it = bpf_map_lookup_elem(&buckets, &source);

	if (!it)
		return bpf_map_update_elem(&buckets, &source, &fresh, BPF_NOEXIST) ? XDP_DROP : XDP_PASS;
	if (now - it->time > 1000000000) {
		it->time = now;
		it->tokens++;
	}
	if (!it->tokens)
		return XDP_DROP;
	it->tokens--;
	return XDP_PASS;
}
