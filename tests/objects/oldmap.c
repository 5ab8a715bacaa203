/* A map as it was declared before types were recorded. */
/* no image: its maps are in the old section "maps" */
#include "filter.h"
struct definition {
    __u32 type, key_size, value_size, entries, flags;
};
struct definition counts SEC("maps") = {BPF_MAP_TYPE_ARRAY, 4, 8, 4, 0};
HELPER(1, void *, look_up, void *map, const void *key);

SEC("xdp") int program(struct xdp_md *context)
{
    __u32 zero = 0;
    __u64 *count = look_up(&counts, &zero);
    return count && ++*count & 1 ? XDP_PASS : XDP_DROP;
}
