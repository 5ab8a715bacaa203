/* Fills a hash map with keys and goes through them by their ranks: they come in the order of their bytes, each once, and a key
   that is added or removed on the way is seen. A walk sorts the keys once, so it is cheap in a large map.

   usage: walk        (built and run by build.sh; the last line says how many keys and how long the quickest of three walks took, each
   after a change. The status is 0 if that was at most 250 milliseconds of the processor, and 1 if not) */
#include "xdpvm.h"
#include <stdio.h>
#include <string.h>
#include <time.h>

enum { KEYS = 65536, MOST = 250 };

static const char text[] = "map hash 4 8 65536\nr1 = map_by_idx(0)\nr0 = 2\nexit\n";
static uint8_t image[XDPVM_MAX_IMAGE], why[4096];
static struct xdpvm_session session;

/* How many keys there are, by their ranks; 0 where they are not in order. */
static size_t walk(void) {
    uint8_t before[4] = {0}, key[4], value[8];
    size_t rank = 0;
    while (xdpvm_next(&session, 0, rank, key, sizeof key, value, sizeof value) == XDPVM_OK) {
        if (rank > 0 && memcmp(before, key, sizeof key) >= 0) return 0;
        memcpy(before, key, sizeof key);
        rank++;
    }
    return rank;
}

/* How many milliseconds of the processor a walk takes; below 0 where it has not so many keys. */
static double timed(size_t keys) {
    clock_t start = clock();
    if (walk() != keys) return -1;
    return (double)(clock() - start) * 1000 / CLOCKS_PER_SEC;
}

int main(void) {
    struct xdpvm_assembled made;
    struct xdpvm_changed changed;
    uint8_t key[4], value[8] = {0};
    if (xdpvm_assemble((const uint8_t *)text, sizeof text - 1, image, sizeof image, why, sizeof why, &made)) return 1;
    if (xdpvm_open(image, made.size, &session)) return 1;
    for (uint32_t i = 0; i < KEYS; i++) {
        uint32_t mixed = i * 2654435761u;
        memcpy(key, &mixed, sizeof key);
        if (xdpvm_update(&session, 0, key, sizeof key, value, sizeof value, 0, &changed) || changed.answer) return 1;
    }
    double least = timed(KEYS);
    if (least < 0) return 1;
    /* the key of all zero bytes is the first one */
    memset(key, 0, sizeof key);
    for (size_t keys = KEYS - 1; keys <= KEYS; keys++) {
        uint32_t status = keys < KEYS ? xdpvm_delete(&session, 0, key, sizeof key, &changed)
                                      : xdpvm_update(&session, 0, key, sizeof key, value, sizeof value, 0, &changed);
        if (status || changed.answer) return 1;
        double took = timed(keys);
        if (took < 0) return 1;
        if (took < least) least = took;
    }
    xdpvm_close(&session);
    printf("%d keys in %.0f milliseconds\n", KEYS, least);
    return least <= MOST ? 0 : 1;
}
