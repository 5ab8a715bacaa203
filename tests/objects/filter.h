/* What the filters of this folder share: types, the context, and how they are compiled for this machine (HOST). Each writes
   what it counted into the packet, so that a run shows its variables. */
#include <linux/bpf.h>
#define SEC(name) __attribute__((section(name), used))
#define NOINLINE __attribute__((noinline))
#ifdef HOST
#define CORE
#else
#define CORE __attribute__((preserve_access_index))
#endif

/* A helper of the kernel, by its number: gcc has an attribute for it, clang takes the number as an address. */
#ifdef __clang__
#define HELPER(number, type, name, ...) static type (*const name)(__VA_ARGS__) = (void *)number
#else
#define HELPER(number, type, name, ...) type name(__VA_ARGS__) __attribute__((kernel_helper(number)))
#endif

/* The packet's first byte; 34 bytes are there, or the filter ends. */
#define BEGIN(packet, context)                                                                                                 \
    unsigned char *packet = (unsigned char *)(long)(context)->data;                                                            \
    if (packet + 34 > (unsigned char *)(long)(context)->data_end)                                                              \
    return XDP_ABORTED
