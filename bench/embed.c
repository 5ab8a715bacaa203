/* What calls of the library take.

   usage: embed SECONDS IMAGE..                    how often a processor second has room for each call, on each image
          embed --threads COUNT SECONDS IMAGE..    runs a second on one session a thread, of one thread and of COUNT threads
          embed --run TIMES RUNS IMAGE PACKET      nanoseconds of a run on an open session, the least of TIMES times RUNS runs, and r0;
                                                   the packet is the file's bytes, and each run has what the one before left
   (built as examples/embed/build.sh builds embed.c, with -pthread) */
#include "../examples/embed/xdpvm.h"
#include <pthread.h>
#include <stdio.h>
#include <stdlib.h>
#include <string.h>
#include <time.h>

enum { MOST_THREADS = 256, MOST_PACKET = 9216 };

struct runner {
    pthread_t id;
    double until;
    long runs;
    char apart[64]; /* no two threads write to one line of a cache */
};

static uint8_t image[XDPVM_MAX_IMAGE], why[1 << 14], packet[64], frames[4 + 1000 * 84], report[1 << 16], sent[sizeof frames];
static size_t size;
static const struct xdpvm_head head = {7, 2, 0};
static struct xdpvm_session session;

static uint32_t call(int which) {
    struct xdpvm_verdict verdict;
    struct xdpvm_ended ended;
    struct xdpvm_traced_end traced;
    struct xdpvm_streamed streamed;
    switch (which) {
    case 0: return xdpvm_verify(image, size, XDPVM_MAX_EXPLORED, why, sizeof why, &verdict);
    case 1: return xdpvm_verify(image, size, XDPVM_MAX_EXPLORED, why, 0, &verdict);
    case 2: return xdpvm_run_once(image, size, &head, packet, sizeof packet, &ended);
    case 3: return xdpvm_trace_once(image, size, &head, packet, sizeof packet, XDPVM_MAX_STEPS, &traced);
    case 4: return xdpvm_run(&session, &head, packet, sizeof packet, &ended);
    default: return xdpvm_run_stream(image, size, frames, sizeof frames, report, sizeof report, sent, sizeof sent, &streamed);
    }
}

static double now(clockid_t clock) {
    struct timespec time;
    clock_gettime(clock, &time);
    return (double)time.tv_sec + (double)time.tv_nsec * 1e-9;
}

static size_t read_file(const char *path, uint8_t *to, size_t room) {
    FILE *file = fopen(path, "rb");
    if (!file) {
        perror(path);
        exit(1);
    }
    size_t count = fread(to, 1, room, file);
    fclose(file);
    return count;
}

static void time_each_call(double seconds) {
    xdpvm_open(image, size, &session);
    for (int which = 0; which < 6; which++) {
        long calls = 0;
        double start = now(CLOCK_PROCESS_CPUTIME_ID), end;
        uint32_t status;
        do {
            /* the clock is read seldom if a call takes less time than reading it */
            for (int k = which == 4 ? 1000 : 1; k > 0; k--, calls++) status = call(which);
            end = now(CLOCK_PROCESS_CPUTIME_ID);
        } while (end - start < seconds);
        printf("  %u %.0f", status, (double)calls / (end - start));
    }
    xdpvm_close(&session);
    puts("");
}

/* Runs a session of its own until the time is over. */
static void *run_until(void *given) {
    struct runner *it = given;
    struct xdpvm_session own = {0};
    struct xdpvm_ended ended;
    uint8_t bytes[64] = {0};
    if (xdpvm_open(image, size, &own) != XDPVM_OK) return NULL;
    while (now(CLOCK_MONOTONIC) < it->until)
        for (int k = 0; k < 1000; k++, it->runs++) xdpvm_run(&own, &head, bytes, sizeof bytes, &ended);
    xdpvm_close(&own);
    return NULL;
}

/* How many runs a second so many threads make, each on a session of its own. */
static double rate_of(int threads, double seconds) {
    static struct runner runners[MOST_THREADS];
    double start = now(CLOCK_MONOTONIC), runs = 0;
    for (int i = 0; i < threads; i++) {
        runners[i].until = start + seconds;
        runners[i].runs = 0;
        if (pthread_create(&runners[i].id, NULL, run_until, &runners[i])) exit(1);
    }
    for (int i = 0; i < threads; i++) {
        pthread_join(runners[i].id, NULL);
        runs += (double)runners[i].runs;
    }
    return runs / (now(CLOCK_MONOTONIC) - start);
}

static void time_threads(int threads, double seconds) {
    double alone = rate_of(1, seconds), together = rate_of(threads, seconds);
    if (alone == 0) {
        puts(" refused");
    } else {
        printf("  %.0f %.0f, %.2f times as many\n", alone, together, together / alone);
    }
}

static int time_run(int times, long runs, const char *path) {
    static const struct xdpvm_head first = {0, 1, 0};
    static uint8_t bytes[MOST_PACKET + 1];
    size_t count = read_file(path, bytes, sizeof bytes);
    struct xdpvm_ended ended = {0};
    uint32_t status = xdpvm_open(image, size, &session);
    double least = 1e9;
    for (int time = 0; time < times && status == XDPVM_OK; time++) {
        double start = now(CLOCK_MONOTONIC);
        for (long k = 0; k < runs && status == XDPVM_OK; k++) status = xdpvm_run(&session, &first, bytes, count, &ended);
        double took = now(CLOCK_MONOTONIC) - start;
        least = took < least ? took : least;
    }
    if (status != XDPVM_OK) return fprintf(stderr, "embed: status %u\n", status), 1;
    printf("%.1f %llu\n", least * 1e9 / (double)runs, (unsigned long long)ended.r0);
    return 0;
}

int main(int count, char **words) {
    int is_threads = count > 4 && !strcmp(words[1], "--threads"), threads = is_threads ? atoi(words[2]) : 0;
    if (count == 6 && !strcmp(words[1], "--run")) {
        size = read_file(words[4], image, sizeof image);
        return time_run(atoi(words[2]), atol(words[3]), words[5]);
    }
    if (count < 3 || (is_threads && (threads < 1 || threads > MOST_THREADS)))
        return fputs("usage: embed SECONDS IMAGE.. | --threads COUNT SECONDS IMAGE.. | --run TIMES RUNS IMAGE PACKET\n", stderr), 1;
    memcpy(frames, "XPF1", 4);
    for (size_t i = 0; i < 1000; i++) frames[4 + 84 * i + 16] = 64;
    if (is_threads) {
        printf("image: runs a second of one thread, and of %d, each with a session of its own\n", threads);
    } else {
        puts("image: status and calls a second of verify, verify without a text, run_once, trace_once, run on an open session, run_stream (1,000 frames)");
    }
    for (int i = is_threads ? 4 : 2; i < count; i++) {
        size = read_file(words[i], image, sizeof image);
        printf("%s:", words[i]);
        if (is_threads) {
            time_threads(threads, atof(words[3]));
        } else {
            time_each_call(atof(words[1]));
        }
    }
    return 0;
}
