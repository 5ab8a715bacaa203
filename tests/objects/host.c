/* Runs a filter of this folder, compiled for this machine, on each frame of a stream (XPF1) on standard input; prints its
   action and the frame's bytes, a line each. cc -DHOST -include FILTER.c host.c */
#include <stdio.h>
#include <string.h>
#include <sys/mman.h>

int main(void)
{
    unsigned char head[20], *packet = mmap(0, 1 << 16, PROT_READ | PROT_WRITE, MAP_PRIVATE | MAP_ANONYMOUS | MAP_32BIT, -1, 0);
    if (packet == MAP_FAILED || fread(head, 1, 4, stdin) != 4)
        return 1;
    while (fread(head, 1, 20, stdin) == 20) {
        unsigned int interface, queue, length;
#ifdef NOEXIST
        memcpy(&host_time, head, 8);
#endif
        memcpy(&interface, head + 8, 4);
        memcpy(&queue, head + 12, 4);
        memcpy(&length, head + 16, 4);
        if (length > 1 << 16 || fread(packet, 1, length, stdin) != length)
            return 1;
        struct xdp_md context = {0};
        context.data = (unsigned int)(long)packet;
        context.data_end = context.data + length;
        context.ingress_ifindex = interface;
        context.rx_queue_index = queue;
        printf("%d ", program(&context));
        for (unsigned int at = 0; at < length; at++)
            printf("%02x", packet[at]);
        printf("\n");
    }
    return 0;
}
