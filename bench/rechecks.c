/* xdpvm_recheck beside xdpvm_verify, on an image and a proof table that are in memory: the processor seconds of a call of
   each, the least of RUNS calls, which take turns.

   usage: rechecks RUNS IMAGE TABLE        (built as examples/embed/build.sh builds embed.c) */
#include "../examples/embed/xdpvm.h"
#include <stdio.h>
#include <stdlib.h>
#include <time.h>

static uint8_t why[1];

static uint8_t *bytes_of(const char *name, size_t *size) {
    FILE *file = fopen(name, "rb");
    if (!file || fseek(file, 0, SEEK_END)) exit(2);
    *size = (size_t)ftell(file);
    rewind(file);
    uint8_t *bytes = malloc(*size);
    if (!bytes || fread(bytes, 1, *size, file) != *size) exit(2);
    fclose(file);
    return bytes;
}

static double now(void) {
    struct timespec time;
    clock_gettime(CLOCK_PROCESS_CPUTIME_ID, &time);
    return (double)time.tv_sec + (double)time.tv_nsec * 1e-9;
}

int main(int count, char **words) {
    if (count != 4) return 2;
    size_t image_size, table_size;
    const uint8_t *image = bytes_of(words[2], &image_size), *table = bytes_of(words[3], &table_size);
    struct xdpvm_verdict verdict;
    struct xdpvm_rechecked rechecked;
    double verify = 1e9, recheck = 1e9;
    for (int run = atoi(words[1]); run > 0; run--) {
        double start = now();
        uint32_t first = xdpvm_verify(image, image_size, XDPVM_MAX_EXPLORED, why, 0, &verdict);
        double middle = now();
        uint32_t second = xdpvm_recheck(image, image_size, table, table_size, why, 0, &rechecked);
        double end = now();
        if (first != XDPVM_OK || second != XDPVM_OK) return 1;
        if (middle - start < verify) verify = middle - start;
        if (end - middle < recheck) recheck = end - middle;
    }
    printf("%.7f %.7f\n", verify, recheck);
    return 0;
}
