/* Sends frames by an interface, or measures how long one takes to another interface; bench/bridge.py runs it.

   usage: traffic send INTERFACE BYTES SECONDS RATE
          traffic delay INTERFACE NAMESPACE OTHER BYTES COUNT

   The frames are of UDP over IPv4 to port 7000, of BYTES bytes. `send` sends RATE frames a second (0: as many as it can), and prints
   how many it sent. `delay` sends COUNT frames, one a millisecond, each once the one before has come to OTHER, an interface in the
   namespace of the file NAMESPACE, or is lost for a second. It prints how many came, and the median and the 99th percentile of their
   delays in nanoseconds. The status is 0, or 1 with a message. */
#define _GNU_SOURCE
#include <arpa/inet.h>
#include <errno.h>
#include <fcntl.h>
#include <linux/if_ether.h>
#include <linux/if_packet.h>
#include <net/if.h>
#include <poll.h>
#include <sched.h>
#include <stdint.h>
#include <stdio.h>
#include <stdlib.h>
#include <string.h>
#include <sys/socket.h>
#include <time.h>
#include <unistd.h>

enum { LONGEST = 9216, TOGETHER = 64 };

static uint8_t frame[LONGEST] = {2, 0, 0, 0, 0, 1, 2, 0, 0, 0, 0, 2, 8, 0, 0x45, [22] = 64, 17, [26] = 10, 9, 0, 1, 10, 9, 0, 2, 0x1b, 0x58, 0x1b, 0x58};

static void fail(const char *what) {
    fprintf(stderr, "traffic: %s: %s\n", what, strerror(errno));
    exit(1);
}

static uint64_t now(void) {
    struct timespec it;
    clock_gettime(CLOCK_MONOTONIC, &it);
    return (uint64_t)it.tv_sec * 1000000000 + (uint64_t)it.tv_nsec;
}

static int opened(const char *name, int protocol) {
    const struct sockaddr_ll to = {.sll_family = AF_PACKET, .sll_protocol = htons((uint16_t)protocol), .sll_ifindex = (int)if_nametoindex(name)};
    const int found = socket(AF_PACKET, SOCK_RAW, 0);
    if (found < 0 || !to.sll_ifindex || bind(found, (const struct sockaddr *)&to, sizeof to)) fail(name);
    return found;
}

static int send_frames(const char *name, size_t bytes, double seconds, double rate) {
    const int to = opened(name, 0);
    struct iovec part = {.iov_base = frame, .iov_len = bytes};
    struct mmsghdr together[TOGETHER] = {0};
    for (int k = 0; k < TOGETHER; k++) together[k].msg_hdr = (struct msghdr){.msg_iov = &part, .msg_iovlen = 1};
    const int one = 1;
    if (setsockopt(to, SOL_PACKET, PACKET_QDISC_BYPASS, &one, sizeof one)) fail("PACKET_QDISC_BYPASS");
    const uint64_t begin = now(), end = begin + (uint64_t)(seconds * 1e9);
    unsigned long long sent = 0;
    for (uint64_t at = begin; at < end; at = now()) {
        double due = rate > 0 ? (double)(at - begin) * rate / 1e9 - (double)sent : TOGETHER;
        if (due < 1) {
            const struct timespec pause = {.tv_nsec = 50000};
            nanosleep(&pause, NULL);
            continue;
        }
        const int done = sendmmsg(to, together, due < TOGETHER ? (unsigned)due : TOGETHER, 0);
        if (done > 0) sent += (unsigned)done;
        else if (errno != ENOBUFS && errno != EAGAIN) fail(name);
    }
    printf("%llu\n", sent);
    return 0;
}

static int by_size(const void *left, const void *right) {
    const uint64_t a = *(const uint64_t *)left, b = *(const uint64_t *)right;
    return (a > b) - (a < b);
}

static int measure(const char *name, const char *other, const char *there, size_t bytes, size_t count) {
    const int to = opened(name, 0), space = open(other, O_RDONLY | O_CLOEXEC);
    if (space < 0 || setns(space, CLONE_NEWNET)) fail(other);
    const int from = opened(there, ETH_P_ALL);
    uint64_t *delays = calloc(count, sizeof *delays);
    if (!delays) fail("calloc");
    size_t came = 0;
    for (size_t k = 0; k < count; k++) {
        uint8_t got[LONGEST];
        const struct timespec pause = {.tv_nsec = 1000000};
        nanosleep(&pause, NULL);
        memcpy(frame + 42, &k, sizeof k); /* behind the head of UDP: the number of the frame */
        const uint64_t begin = now();
        if (send(to, frame, bytes, 0) < 0) fail(name);
        struct pollfd waits = {.fd = from, .events = POLLIN};
        while (poll(&waits, 1, 1000) > 0) {
            const ssize_t length = recv(from, got, sizeof got, MSG_DONTWAIT);
            if (length != (ssize_t)bytes || memcmp(got, frame, bytes)) continue;
            delays[came++] = now() - begin;
            break;
        }
    }
    qsort(delays, came, sizeof *delays, by_size);
    printf("%zu %llu %llu\n", came, came ? (unsigned long long)delays[came / 2] : 0, came ? (unsigned long long)delays[came * 99 / 100] : 0);
    free(delays);
    return 0;
}

int main(int count, char **words) {
    const int sends = count == 6 && !strcmp(words[1], "send"), measures = count == 7 && !strcmp(words[1], "delay");
    const long bytes = sends ? atol(words[3]) : measures ? atol(words[5]) : 0;
    if (bytes < 60 || bytes > LONGEST) {
        fputs("usage: traffic send INTERFACE BYTES SECONDS RATE\n       traffic delay INTERFACE NAMESPACE OTHER BYTES COUNT\n", stderr);
        return 1;
    }
    frame[16] = (uint8_t)((bytes - 14) >> 8), frame[17] = (uint8_t)(bytes - 14);
    frame[38] = (uint8_t)((bytes - 34) >> 8), frame[39] = (uint8_t)(bytes - 34);
    uint32_t sum = 0; /* of the head of IPv4 */
    for (int k = 14; k < 34; k += 2) sum += (uint32_t)frame[k] << 8 | frame[k + 1];
    sum = (sum & 0xffff) + (sum >> 16);
    frame[24] = (uint8_t)(~sum >> 8), frame[25] = (uint8_t)~sum;
    if (sends) return send_frames(words[2], (size_t)bytes, atof(words[4]), atof(words[5]));
    return measure(words[2], words[3], words[4], (size_t)bytes, (size_t)atol(words[6]));
}
