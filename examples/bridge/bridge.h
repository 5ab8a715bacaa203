/* The parts of the bridge: interfaces (link.c), the filter with its maps (filter.c), and what is said on standard error. */
#ifndef BRIDGE_H
#define BRIDGE_H

#include "xdpvm.h"
#include <linux/virtio_net.h>
#include <stdio.h>

enum status { USAGE = 1, REFUSED = 2, UNREADABLE = 3, UNWRITABLE = 4, NO_MEMORY = 5, INTERFACE = 6, PERMISSION = 7, DOWN = 8 };

/* Says one line on standard error. */
#define tell(...) (flockfile(stderr), fputs("bridge: ", stderr), fprintf(stderr, __VA_ARGS__), fputc('\n', stderr), funlockfile(stderr))

/* An interface, with the ring into which the kernel puts the frames that come in by it. */
struct link {
    const char *name;
    uint8_t *ring;
    size_t next; /* the place in the ring of the next frame */
    unsigned index;
    int socket;
};

/* A frame as it was on the wire, in the ring; `length` is its whole length, and `kept` how many bytes of it are there. The
   time is the kernel's, in nanoseconds since 1970. What of its checksum and its division is left to do is in `left`. */
struct arrival {
    uint8_t *bytes;
    size_t kept, length;
    uint64_t time;
    struct virtio_net_hdr left;
};

/* Opens an interface, with a ring where frames are to be received: 0, or the exit status, with errno. */
int link_open(struct link *link, const char *name, int receives);
int link_has_next(const struct link *link);
/* The next frame of the ring, which stays there until link_release gives its place back to the kernel. */
struct arrival link_take(struct link *link);
void link_release(struct link *link);
/* Waits for a frame, or until `wake` can be read: 1 where that may be, and else 0; -1 where the interface went down. */
int link_wait(const struct link *link, int wake);
/* Sends a frame, and waits where the interface is busy. Returns -1 with errno where it cannot be sent. */
int link_send(const struct link *link, const struct arrival *frame);
/* How many frames came while the ring was full, since the last call. */
unsigned link_lost(const struct link *link);

struct filter {
    struct xdpvm_session session;
    size_t maps;
    struct xdpvm_map_row rows[XDPVM_MAX_MAPS];
};

/* Where a filter comes from; `table` and `contents` may be NULL. */
struct sources {
    const char *image, *table, *contents;
};

/* Loads a filter: 0, or the exit status for what is wrong, which one line says. Of the contents the lines of maps are left out that
   are kept from `before`, which may be NULL. */
int filter_load(struct filter *filter, const struct sources *from, const struct filter *before);
/* Moves the contents of maps with equal rows from one filter to another, which has not run, and closes the first: 0, or -1 where
   memory ran out, and then the other one is closed. */
int filter_follow(struct filter *filter, struct filter *before);
/* Prints the lines of all maps, as a report has them. */
void filter_print(struct filter *filter, FILE *to);

#endif
