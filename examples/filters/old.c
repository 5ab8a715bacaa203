/* says: old.c: its maps are in the old section "maps": define them with SEC\("\.maps"\) */
/* A map in the form before libbpf's. */
#include "filter.h"

struct bpf_map_def {
	unsigned int type, key_size, value_size, max_entries, map_flags;
};

struct bpf_map_def SEC("maps") counts = { BPF_MAP_TYPE_ARRAY, 4, 8, 4, 0 };

SEC("xdp") int old(struct xdp_md *context)
{
	__u32 key = 1;
	return bpf_map_lookup_elem(&counts, &key) ? XDP_PASS : XDP_DROP;
}
