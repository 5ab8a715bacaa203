/* A context with some of its fields, and in another order than Linux has them, whose places are recorded (CO-RE). */
/* gcc: CO-RE */
#ifdef HOST
#include "filter.h"
#define CONTEXT xdp_md
#else
typedef unsigned int __u32;
typedef unsigned char __u8;
#define __LINUX_BPF_H__
#define _UAPI__LINUX_BPF_H__
enum xdp_action { XDP_ABORTED, XDP_DROP, XDP_PASS, XDP_TX };
#include "filter.h"
struct xdp_md {
    __u32 rx_queue_index;
    __u32 data_end;
    __u32 ingress_ifindex;
    __u32 data;
} CORE;
#endif
__u32 sum;

SEC("xdp") int program(struct xdp_md *context)
{
    BEGIN(packet, context);
    sum += context->rx_queue_index;
    packet[0] = sum;
    packet[1] = context->ingress_ifindex;
    packet[2] = context->rx_queue_index;
    return context->ingress_ifindex == 2 ? XDP_TX : XDP_PASS;
}
