/* A bridge between two interfaces that passes on the frames which a verified filter passes. docs/BRIDGE.md.

   usage: bridge IMAGE IN OUT [--table TABLE] [--maps MAPS] [--pcap FILE] [--both] [--seconds N] */
#define _GNU_SOURCE
#include "bridge.h"
#include <errno.h>
#include <getopt.h>
#include <linux/capability.h>
#include <pthread.h>
#include <signal.h>
#include <stdatomic.h>
#include <stdlib.h>
#include <string.h>
#include <sys/eventfd.h>
#include <sys/prctl.h>
#include <sys/syscall.h>
#include <time.h>
#include <unistd.h>

enum { ABORTED, DROP, PASS, TX, REDIRECT, INVALID, ACTIONS };

/* The way from one interface to the other, in a thread of its own. The thread that takes signals asks of it what `asked` and
   `fresh` say, and wakes it. */
struct way {
    struct link *in, *out;
    struct filter filter;
    struct filter *_Atomic fresh; /* a filter that is to follow */
    FILE *capture;
    unsigned long long received, actions[ACTIONS], too_long, lost, unsent;
    int wake, runs;
    atomic_int asked, ends;
    pthread_t thread;
};

static atomic_int ended_with; /* the exit status, once a way has failed */

static void print(struct way *way) {
    way->lost += link_lost(way->in);
    flockfile(stdout);
    printf("%s to %s: %llu received, %llu PASS, %llu TX, %llu DROP, %llu ABORTED, %llu INVALID, %llu REDIRECT, %llu too long, %llu lost, %llu not sent\n",
           way->in->name, way->out->name, way->received, way->actions[PASS], way->actions[TX], way->actions[DROP], way->actions[ABORTED],
           way->actions[INVALID], way->actions[REDIRECT], way->too_long, way->lost, way->unsent);
    filter_print(&way->filter, stdout);
    fflush(stdout);
    funlockfile(stdout);
    if (way->capture) fflush(way->capture);
}

/* Writes a frame to the capture; where that fails the capture ends, and the bridge does not. */
static void keep(struct way *way, const struct arrival *frame) {
    const uint32_t head[4] = {(uint32_t)(frame->time / 1000000000), (uint32_t)(frame->time % 1000000000), (uint32_t)frame->kept, (uint32_t)frame->length};
    fwrite(head, sizeof head, 1, way->capture);
    fwrite(frame->bytes, frame->kept, 1, way->capture);
    if (!ferror(way->capture)) return;
    tell("the capture ends here: %s", strerror(errno));
    fclose(way->capture);
    way->capture = NULL;
    ended_with = UNWRITABLE;
}

/* Runs the filter on a frame, in place, and sends it where the action says. Nothing else is sent. */
static void judge(struct way *way, struct arrival *frame) {
    const struct xdpvm_head head = {.time = frame->time, .interface = way->in->index, .queue = 0};
    struct xdpvm_ended ended;
    way->received++;
    if (way->capture) keep(way, frame);
    if (frame->kept != frame->length || xdpvm_run(&way->filter.session, &head, frame->bytes, frame->length, &ended) != XDPVM_OK) {
        way->too_long++;
        return;
    }
    const uint32_t action = xdpvm_action(ended.r0);
    way->actions[action]++;
    if ((action == PASS || action == TX) && link_send(action == PASS ? way->out : way->in, frame)) way->unsent++;
}

static void *run(void *given) {
    struct way *way = given;
    eventfd_t woken;
    while (!way->ends) {
        const int found = link_wait(way->in, way->wake);
        if (found < 0) {
            tell("%s: %s", way->in->name, strerror(errno));
            ended_with = DOWN;
            kill(getpid(), SIGTERM);
            return NULL;
        }
        for (int k = 0; k < 256 && link_has_next(way->in); k++) {
            struct arrival frame = link_take(way->in);
            judge(way, &frame);
            link_release(way->in);
        }
        if (!found || eventfd_read(way->wake, &woken)) continue;
        struct filter *fresh = way->fresh;
        if (fresh && !filter_follow(fresh, &way->filter)) way->filter = *fresh;
        if (fresh) way->fresh = NULL;
        if (atomic_exchange(&way->asked, 0)) print(way);
    }
    return NULL;
}

/* Loads the image again for each way: all follow, or none where it is refused. `rows` has the rows of the filters that run. */
static void reload(const struct sources *from, struct way *ways, int count, struct filter *rows) {
    static struct filter fresh[2];
    const struct timespec pause = {.tv_nsec = 1000000};
    int loaded = 0;
    while (loaded < count && !filter_load(&fresh[loaded], from, rows)) loaded++;
    if (loaded < count) {
        tell("the filter stays as it was");
        if (loaded) xdpvm_close(&fresh[0].session);
        return;
    }
    *rows = fresh[0];
    for (int k = 0; k < count; k++) {
        ways[k].fresh = &fresh[k];
        eventfd_write(ways[k].wake, 1);
        while (ways[k].fresh && !ended_with) nanosleep(&pause, NULL);
    }
    tell("%s: loaded again", from->image);
}

/* Gives up all capabilities but the one for packets. */
static int give_up_rights(void) {
    struct __user_cap_header_struct head = {.version = _LINUX_CAPABILITY_VERSION_3};
    const struct __user_cap_data_struct kept[2] = {{.effective = 1u << CAP_NET_RAW, .permitted = 1u << CAP_NET_RAW}, {0}};
    for (int right = 0; prctl(PR_CAPBSET_READ, right) >= 0; right++)
        if (right != CAP_NET_RAW) prctl(PR_CAPBSET_DROP, right);
    return prctl(PR_SET_NO_NEW_PRIVS, 1, 0, 0, 0) || syscall(SYS_capset, &head, kept);
}

static int open_link(struct link *link, const char *name, int receives) {
    const int status = link_open(link, name, receives);
    if (status == PERMISSION) tell("%s: %s (it takes the capability CAP_NET_RAW)", name, strerror(errno));
    if (status == INTERFACE) tell("%s: %s", name, link->index ? strerror(errno) : "there is no such interface");
    return status;
}

/* A capture of frames of Ethernet with times in nanoseconds, as pcap(5) has it. */
static FILE *open_capture(const char *path) {
    const uint32_t head[6] = {0xa1b23c4d, 2 | 4 << 16, 0, 0, 65535, 1};
    FILE *file = fopen(path, "wb");
    if (!file || fwrite(head, sizeof head, 1, file) != 1 || fflush(file)) tell("%s: %s", path, strerror(errno));
    return file;
}

/* Takes signals until the bridge is to end: after so many seconds, where they are not 0, or by SIGINT or SIGTERM. */
static void serve(const struct sources *from, struct way *ways, int count, unsigned seconds, const sigset_t *signals) {
    struct filter rows = ways[0].filter;
    alarm(seconds);
    for (int given = 0; given != SIGINT && given != SIGTERM && given != SIGALRM;) {
        given = sigwaitinfo(signals, NULL);
        if (given == SIGHUP) reload(from, ways, count, &rows);
        for (int k = 0; k < count && given == SIGUSR1; k++) ways[k].asked = 1, eventfd_write(ways[k].wake, 1);
    }
}

static int usage(void) {
    return fputs("usage: bridge IMAGE IN OUT [--table TABLE] [--maps MAPS] [--pcap FILE] [--both] [--seconds N]\n", stderr), USAGE;
}

int main(int count, char **words) {
    static const struct option known[] = {{"table", 1, NULL, 't'}, {"maps", 1, NULL, 'm'}, {"pcap", 1, NULL, 'p'}, {"both", 0, NULL, 'b'}, {"seconds", 1, NULL, 's'}, {0}};
    struct sources from = {0};
    const char *capture = NULL;
    long seconds = 0;
    int ways_there = 1, status = 0;
    for (int option; (option = getopt_long(count, words, "", known, NULL)) != -1;) {
        char *rest = "";
        if (option == 't') from.table = optarg;
        else if (option == 'm') from.contents = optarg;
        else if (option == 'p') capture = optarg;
        else if (option == 'b') ways_there = 2;
        else if (option == 's') seconds = strtol(optarg, &rest, 10);
        else return usage();
        if (*rest || seconds < 0 || seconds > 1000000000) return usage();
    }
    if (count - optind != 3 || !strcmp(words[optind + 1], words[optind + 2])) return usage();
    from.image = words[optind];

    struct link links[2];
    struct way ways[2] = {{.in = &links[0], .out = &links[1]}, {.in = &links[1], .out = &links[0]}};
    sigset_t signals;
    sigemptyset(&signals);
    for (int k = 0; k < 5; k++) sigaddset(&signals, (const int[]){SIGHUP, SIGUSR1, SIGINT, SIGTERM, SIGALRM}[k]);
    pthread_sigmask(SIG_BLOCK, &signals, NULL);
    for (int k = 0; k < ways_there && !status; k++) status = filter_load(&ways[k].filter, &from, NULL);
    for (int k = 0; k < 2 && !status; k++) status = open_link(&links[k], words[optind + 1 + k], k < ways_there);
    if (!status && capture && !(ways[0].capture = open_capture(capture))) status = UNWRITABLE;
    if (!status && give_up_rights()) tell("%s", strerror(errno)), status = PERMISSION;
    for (int k = 0; k < ways_there && !status; k++) {
        ways[k].wake = eventfd(0, EFD_NONBLOCK | EFD_CLOEXEC);
        ways[k].runs = ways[k].wake >= 0 && !pthread_create(&ways[k].thread, NULL, run, &ways[k]);
        if (!ways[k].runs) tell("out of memory"), status = NO_MEMORY;
    }
    if (status) ended_with = status;
    else tell("%s to %s: %s", links[0].name, links[1].name, from.image), serve(&from, ways, ways_there, (unsigned)seconds, &signals);
    for (int k = 0; k < ways_there; k++) {
        if (ways[k].runs) {
            ways[k].ends = 1;
            eventfd_write(ways[k].wake, 1);
            pthread_join(ways[k].thread, NULL);
            print(&ways[k]);
        }
        if (ways[k].capture && fclose(ways[k].capture)) tell("%s: %s", capture, strerror(errno)), ended_with = UNWRITABLE;
        xdpvm_close(&ways[k].filter.session);
    }
    return ended_with;
}
