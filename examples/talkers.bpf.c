/* Counts IPv4 frames by source address, and drops those of a source after its first three. */
#include <linux/bpf.h>
#include <linux/if_ether.h>
#include <linux/ip.h>

#define big_endian(x) __builtin_bswap16(x)

/* What <bpf/bpf_helpers.h> of libbpf has too. */
#define SEC(name) __attribute__((section(name), used))
#define __uint(name, value) int(*name)[value]
#define __type(name, of) of *name
static void *(*bpf_map_lookup_elem)(void *map, const void *key) = (void *)1;
static long (*bpf_map_update_elem)(void *map, const void *key, const void *value, __u64 flags) = (void *)2;

struct {
	__uint(type, BPF_MAP_TYPE_HASH);
	__uint(max_entries, 256);
	__type(key, __u32);
	__type(value, __u64);
} frames_of SEC(".maps");

static __u64 uncounted; /* frames of sources that found no room */

static __attribute__((noinline)) __u64 counted(__u32 source)
{
	__u64 one = 1, *count = bpf_map_lookup_elem(&frames_of, &source);

	if (count)
		return ++*count;
	if (bpf_map_update_elem(&frames_of, &source, &one, BPF_NOEXIST))
		__sync_fetch_and_add(&uncounted, 1);
	return 1;
}

SEC("xdp") int talkers(struct xdp_md *context)
{
	void *data = (void *)(long)context->data;
	void *end = (void *)(long)context->data_end;

	struct ethhdr *ethernet = data;
	if ((void *)(ethernet + 1) > end || ethernet->h_proto != big_endian(ETH_P_IP))
		return XDP_PASS;

	struct iphdr *ip = (void *)(ethernet + 1);
	if ((void *)(ip + 1) > end)
		return XDP_PASS;
	return counted(ip->saddr) > 3 ? XDP_DROP : XDP_PASS;
}
