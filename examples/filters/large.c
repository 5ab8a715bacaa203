/* says: large.c: map flows: its max_entries is 1,000,000, and 1 to 65,536 are possible */
/* A map with too many entries. The kernel accepts it. */
#include "filter.h"

struct {
	__uint(type, BPF_MAP_TYPE_HASH);
	__uint(max_entries, 1000000);
	__type(key, __u32);
	__type(value, __u64);
} flows SEC(".maps");

SEC("xdp") int large(struct xdp_md *context)
{
	__u32 key = 1;
	return bpf_map_lookup_elem(&flows, &key) ? XDP_DROP : XDP_PASS;
}
