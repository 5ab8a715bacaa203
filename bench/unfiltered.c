/* A bridge that runs its filter REPEATS times on each frame; 0 times, and every frame passes. bench/forwarding.py links it with
   `-Wl,--wrap=xdpvm_run`. */
#include "xdpvm.h"

#ifndef REPEATS
#define REPEATS 0
#endif

uint32_t __real_xdpvm_run(struct xdpvm_session *session, const struct xdpvm_head *head, uint8_t *packet, size_t length, struct xdpvm_ended *ended);
uint32_t __wrap_xdpvm_run(struct xdpvm_session *session, const struct xdpvm_head *head, uint8_t *packet, size_t length, struct xdpvm_ended *ended);

uint32_t __wrap_xdpvm_run(struct xdpvm_session *session, const struct xdpvm_head *head, uint8_t *packet, size_t length, struct xdpvm_ended *ended) {
    uint32_t is = XDPVM_OK;
    ended->r0 = 2;
    ended->steps = 0;
    for (int k = 0; k < REPEATS && is == XDPVM_OK; k++) is = __real_xdpvm_run(session, head, packet, length, ended);
    return is;
}
