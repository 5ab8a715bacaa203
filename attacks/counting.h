/* A program that counts the packets of each interface in a hash map, for threads.c and misuse.c, and its image. */
#ifndef COUNTING_H
#define COUNTING_H

#include "../examples/embed/xdpvm.h"
#include <stdio.h>
#include <stdlib.h>
#include <string.h>

static const char counting[] = "map hash 4 8 256\n"
                               "        r6 = *(u32 *)(r1 + 12)\n"
                               "        *(u32 *)(r10 - 4) = r6\n"
                               "        r1 = map_by_idx(0); r2 = r10; r2 += -4\n"
                               "        call 1\n"
                               "        if r0 == 0 goto new\n"
                               "        r1 = 1\n"
                               "        lock *(u64 *)(r0 + 0) += r1\n"
                               "        r0 = 2\n"
                               "        exit\n"
                               "new:    *(u64 *)(r10 - 16) = 1\n"
                               "        r1 = map_by_idx(0); r2 = r10; r2 += -4; r3 = r10; r3 += -16; r4 = 0\n"
                               "        call 2\n"
                               "        r0 = 2\n"
                               "        exit\n";
static uint8_t image[XDPVM_MAX_IMAGE];
static size_t image_size;

static void make_image(void) {
    static uint8_t why[4096];
    struct xdpvm_assembled made;
    if (xdpvm_assemble((const uint8_t *)counting, sizeof counting - 1, image, sizeof image, why, sizeof why, &made)) {
        fprintf(stderr, "the program is refused: %.*s", (int)made.size, (const char *)why);
        exit(1);
    }
    image_size = made.size;
}

#endif
