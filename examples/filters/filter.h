/* What the filters beside this file share: the frame's headers, and what <bpf/bpf_helpers.h> of libbpf has too. */
#include <linux/bpf.h>
#include <linux/if_ether.h>
#include <linux/in.h>
#include <linux/ip.h>
#include <linux/ipv6.h>
#include <linux/tcp.h>
#include <linux/udp.h>

#define be16(x) __builtin_bswap16(x)
#define be32(x) __builtin_bswap32(x)
#define SEC(name) __attribute__((section(name), used))
#define NOINLINE __attribute__((noinline))
#define __uint(name, value) int(*name)[value]
#define __type(name, of) of *name
#define BEGIN(context) ((void *)(long)(context)->data)
#define END(context) ((void *)(long)(context)->data_end)

#ifdef __clang__
#define HELPER(number, type, name, ...) static type (*const name)(__VA_ARGS__) = (void *)number
#else
#define HELPER(number, type, name, ...) type name(__VA_ARGS__) __attribute__((kernel_helper(number)))
#endif

HELPER(1, void *, bpf_map_lookup_elem, void *map, const void *key);
HELPER(2, long, bpf_map_update_elem, void *map, const void *key, const void *value, __u64 flags);
HELPER(5, __u64, bpf_ktime_get_ns, void);

/* The IPv4 header of a frame, without options, or none. */
static inline struct iphdr *ipv4(void *data, void *end)
{
	struct ethhdr *ethernet = data;
	struct iphdr *ip = (void *)(ethernet + 1);

	if ((void *)(ip + 1) > end || ethernet->h_proto != be16(ETH_P_IP))
		return 0;
	return ip;
}
