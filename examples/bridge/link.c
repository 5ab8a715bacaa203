/* Frames of an interface by AF_PACKET, with a ring in memory that the kernel shares (packet(7), and packet_mmap in the kernel's
   documents). Each frame is in the ring as soon as it has come: the third version of rings hands on blocks of frames, and a frame
   alone waits there for a timer. */
#include "bridge.h"
#include <arpa/inet.h>
#include <errno.h>
#include <linux/if_ether.h>
#include <linux/if_packet.h>
#include <net/if.h>
#include <poll.h>
#include <string.h>
#include <sys/mman.h>
#include <sys/socket.h>
#include <time.h>
#include <unistd.h>

/* A place holds the longest frame that is run, 9,216 bytes, with a VLAN tag. */
enum { PLACE = 16384, PLACES = 2048, BLOCK = 1 << 20, TAG = 4, ADDRESSES = 12, PATIENCE_MS = 1000 };

static volatile struct tpacket2_hdr *place_of(const struct link *link) {
    return (struct tpacket2_hdr *)(link->ring + link->next * PLACE);
}

/* Has the kernel put frames into a ring: without those that this machine sends itself, and those for other stations too. */
static int receive(struct link *link) {
    const int version = TPACKET_V2, yes = 1;
    const struct tpacket_req ring = {.tp_block_size = BLOCK, .tp_block_nr = PLACES / (BLOCK / PLACE), .tp_frame_size = PLACE, .tp_frame_nr = PLACES};
    const struct packet_mreq all = {.mr_ifindex = (int)link->index, .mr_type = PACKET_MR_PROMISC};
    if (setsockopt(link->socket, SOL_PACKET, PACKET_VERSION, &version, sizeof version) ||
        setsockopt(link->socket, SOL_PACKET, PACKET_IGNORE_OUTGOING, &yes, sizeof yes) ||
        setsockopt(link->socket, SOL_PACKET, PACKET_RX_RING, &ring, sizeof ring) ||
        setsockopt(link->socket, SOL_PACKET, PACKET_ADD_MEMBERSHIP, &all, sizeof all)) {
        return -1;
    }
    void *memory = mmap(NULL, (size_t)PLACE * PLACES, PROT_READ | PROT_WRITE, MAP_SHARED, link->socket, 0);
    link->ring = memory == MAP_FAILED ? NULL : memory;
    return link->ring ? 0 : -1;
}

int link_open(struct link *link, const char *name, int receives) {
    const int yes = 1;
    *link = (struct link){.name = name, .index = if_nametoindex(name), .socket = -1};
    if (!link->index) return INTERFACE;
    link->socket = socket(AF_PACKET, SOCK_RAW | SOCK_CLOEXEC, 0);
    if (link->socket < 0) return errno == EPERM || errno == EACCES ? PERMISSION : INTERFACE;
    const struct sockaddr_ll there = {.sll_family = AF_PACKET, .sll_protocol = receives ? htons(ETH_P_ALL) : 0, .sll_ifindex = (int)link->index};
    if (setsockopt(link->socket, SOL_PACKET, PACKET_VNET_HDR, &yes, sizeof yes) || (receives && receive(link)) ||
        bind(link->socket, (const struct sockaddr *)&there, sizeof there)) {
        return errno == EPERM ? PERMISSION : INTERFACE;
    }
    return 0;
}

int link_has_next(const struct link *link) {
    return (__atomic_load_n(&place_of(link)->tp_status, __ATOMIC_ACQUIRE) & TP_STATUS_USER) != 0;
}

/* Puts the VLAN tag back that the interface took out: after the addresses, which move towards the front. */
static void put_tag(struct arrival *frame, uint16_t kind, uint16_t tag) {
    const uint16_t bytes[2] = {htons(kind), htons(tag)};
    memmove(frame->bytes - TAG, frame->bytes, ADDRESSES);
    memcpy(frame->bytes - TAG + ADDRESSES, bytes, TAG);
    frame->bytes -= TAG, frame->kept += TAG, frame->length += TAG;
    if (frame->left.flags & VIRTIO_NET_HDR_F_NEEDS_CSUM) frame->left.csum_start = (uint16_t)(frame->left.csum_start + TAG);
    if (frame->left.hdr_len) frame->left.hdr_len = (uint16_t)(frame->left.hdr_len + TAG);
}

struct arrival link_take(struct link *link) {
    const struct tpacket2_hdr head = *(struct tpacket2_hdr *)place_of(link);
    uint8_t *bytes = link->ring + link->next * PLACE + head.tp_mac;
    struct arrival frame = {.bytes = bytes, .kept = head.tp_snaplen, .length = head.tp_len, .time = head.tp_sec * 1000000000ull + head.tp_nsec};
    memcpy(&frame.left, bytes - sizeof frame.left, sizeof frame.left);
    frame.left.flags &= VIRTIO_NET_HDR_F_NEEDS_CSUM;
    if (head.tp_status & TP_STATUS_VLAN_VALID && frame.kept >= ADDRESSES) {
        put_tag(&frame, head.tp_status & TP_STATUS_VLAN_TPID_VALID ? head.tp_vlan_tpid : ETH_P_8021Q, head.tp_vlan_tci);
    }
    return frame;
}

void link_release(struct link *link) {
    __atomic_store_n(&place_of(link)->tp_status, TP_STATUS_KERNEL, __ATOMIC_RELEASE);
    link->next = (link->next + 1) % PLACES;
}

int link_wait(const struct link *link, int wake) {
    struct pollfd waits[2] = {{.fd = link->socket, .events = POLLIN}, {.fd = wake, .events = POLLIN}};
    if (poll(waits, 2, -1) < 0) return errno == EINTR ? 0 : -1;
    if (!(waits[0].revents & (POLLERR | POLLNVAL | POLLHUP))) return waits[1].revents != 0;
    int error = 0;
    socklen_t size = sizeof error;
    getsockopt(link->socket, SOL_SOCKET, SO_ERROR, &error, &size);
    errno = error;
    return error ? -1 : 1;
}

int link_send(const struct link *link, const struct arrival *frame) {
    struct iovec parts[2] = {{(void *)&frame->left, sizeof frame->left}, {frame->bytes, frame->length}};
    const struct msghdr message = {.msg_iov = parts, .msg_iovlen = 2};
    const struct timespec pause = {.tv_nsec = 1000000};
    for (int waited = 0; sendmsg(link->socket, &message, MSG_NOSIGNAL) < 0; waited++) {
        if ((errno != ENOBUFS && errno != EAGAIN && errno != EINTR) || waited == PATIENCE_MS) return -1;
        nanosleep(&pause, NULL);
    }
    return 0;
}

unsigned link_lost(const struct link *link) {
    struct tpacket_stats lost = {0};
    socklen_t size = sizeof lost;
    return getsockopt(link->socket, SOL_PACKET, PACKET_STATISTICS, &lost, &size) ? 0 : lost.tp_drops;
}
