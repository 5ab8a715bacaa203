/* ok: 8 PASS */
/* A map for each processor, which becomes an array: one processor runs the filter. */
#include "filter.h"

struct {
	__uint(type, BPF_MAP_TYPE_PERCPU_ARRAY);
	__uint(max_entries, 4);
	__type(key, __u32);
	__type(value, __u64);
} counts SEC(".maps");

SEC("xdp") int each(struct xdp_md *context)
{
	__u32 key = 1;
	__u64 *count = bpf_map_lookup_elem(&counts, &key);
	if (count)
		++*count;
	return XDP_PASS;
}
