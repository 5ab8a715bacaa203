/* refused V15 */
/* A value with padding at its end. */
#include "filter.h"

struct value {
	__u64 time;
	__u32 count;
};

struct {
	__uint(type, BPF_MAP_TYPE_HASH);
	__uint(max_entries, 16);
	__type(key, __u32);
	__type(value, struct value);
} sources SEC(".maps");

SEC("xdp") int value(struct xdp_md *context)
{
	__u32 key = context->rx_queue_index;
	struct value value;
	value.time = bpf_ktime_get_ns();
	value.count = 1;
	bpf_map_update_elem(&sources, &key, &value, BPF_ANY);
	return XDP_PASS;
}
