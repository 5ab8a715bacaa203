/* Verifies an image with room for an explanation, and prints what the library says. The status is that of the call.

   usage: stack IMAGE        (built as examples/embed/build.sh builds embed.c) */
#include "../examples/embed/xdpvm.h"
#include <stdio.h>

static uint8_t image[XDPVM_MAX_IMAGE], why[1 << 14];

int main(int count, char **words) {
    FILE *file = count == 2 ? fopen(words[1], "rb") : NULL;
    if (!file) return 99;
    size_t size = fread(image, 1, sizeof image, file);
    fclose(file);
    struct xdpvm_verdict verdict;
    uint32_t status = xdpvm_verify(image, size, XDPVM_MAX_EXPLORED, why, sizeof why, &verdict);
    if (status == XDPVM_REFUSED) fwrite(why, 1, verdict.said < sizeof why ? verdict.said : sizeof why, stdout);
    return (int)status;
}
