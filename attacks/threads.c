/* The library on four threads at once: each makes all its calls, with its own memory and sessions, over images that all of them
   read. Its answers have to be those of the same calls by one thread alone. One session goes from thread to thread under a lock,
   and loses no packet. With -fsanitize=thread, a race on this side ends in a report and another status.

   usage: threads CALLS alone IMAGE ..                      the sums of the answers of each thread alone
          threads CALLS SUM SUM SUM SUM IMAGE ..            all threads at once, which have to have these sums

   attacks/embedding.py builds and runs it; CALLS is how many there are in all. */
#include "counting.h"
#include <pthread.h>

enum { THREADS = 4, MOST_IMAGES = 32, RUNS = 200 };

struct thread {
    pthread_t id;
    uint64_t state, answers;
    unsigned long calls, most, counted;
    int is_alone;
    uint8_t image[XDPVM_MAX_IMAGE], why[4096], text[1 << 16], packet[1514], stream[4 + 3 * 84], sent[4 + 3 * 84], lines[1 << 16];
};

static uint8_t images[MOST_IMAGES][XDPVM_MAX_IMAGE];
static size_t sizes[MOST_IMAGES], count_of_images;
static struct xdpvm_session shared;
static pthread_mutex_t lock = PTHREAD_MUTEX_INITIALIZER;
static struct thread threads[THREADS];

static uint64_t next(struct thread *it) {
    it->state ^= it->state << 13;
    it->state ^= it->state >> 7;
    it->state ^= it->state << 17;
    return it->state >> 20;
}

/* Takes an answer into the sum of all of them. */
static void take(struct thread *it, const void *bytes, size_t size) {
    for (size_t i = 0; i < size; i++) it->answers = (it->answers ^ ((const uint8_t *)bytes)[i]) * 1099511628211u;
}

/* Takes the status of a call. */
static uint32_t called(struct thread *it, uint32_t status) {
    it->calls++;
    take(it, &status, sizeof status);
    return status;
}

static void ask_alone(struct thread *it, const uint8_t *code, size_t size) {
    struct xdpvm_verdict verdict = {0, 0, 0, 0};
    struct xdpvm_described described;
    struct xdpvm_map_row rows[XDPVM_MAX_MAPS];
    struct xdpvm_text_size text = {0};
    struct xdpvm_assembled made;
    struct xdpvm_traced_end end = {0, 0, 0, 0};
    struct xdpvm_streamed streamed = {0, 0, 0, 0, 0};
    struct xdpvm_head head = {next(it), (uint32_t)next(it) % 4, 0};
    called(it, xdpvm_verify(code, size, XDPVM_MAX_EXPLORED, it->why, sizeof it->why, &verdict));
    take(it, it->why, verdict.said < sizeof it->why ? verdict.said : sizeof it->why);
    take(it, &verdict.bound, sizeof verdict.bound);
    called(it, xdpvm_describe(code, size, rows, XDPVM_MAX_MAPS, &described));
    if (called(it, xdpvm_disassemble(code, size, it->text, sizeof it->text, &text)) == XDPVM_OK) {
        take(it, it->text, text.size);
        called(it, xdpvm_assemble(it->text, text.size, it->image, sizeof it->image, it->why, sizeof it->why, &made));
        take(it, it->image, made.size);
    }
    called(it, xdpvm_trace_once(code, size, &head, it->packet, 64, 1000, &end));
    take(it, &end.r0, sizeof end.r0);
    called(it, xdpvm_run_stream(code, size, it->stream, sizeof it->stream, it->lines, sizeof it->lines, it->sent, sizeof it->sent, &streamed));
    take(it, it->lines, streamed.report);
    take(it, it->sent, streamed.sent);
}

static void ask_maps(struct thread *it, struct xdpvm_session *session, const uint8_t *code) {
    static const uint8_t zeros[64];
    uint8_t key[64], value[4096] = {0};
    struct xdpvm_changed changed = {0};
    size_t key_size = code[10], value_size = code[12] | (size_t)code[13] << 8;
    memcpy(key, zeros, sizeof key);
    key[0] = (uint8_t)(next(it) % 8), value[0] = (uint8_t)next(it);
    called(it, xdpvm_update(session, 0, key, key_size, value, value_size, 0, &changed));
    take(it, &changed, sizeof changed);
    called(it, xdpvm_lookup(session, 0, key, key_size, value, value_size));
    take(it, value, value_size);
    called(it, xdpvm_next(session, 0, 0, key, key_size, value, value_size));
    take(it, key, key_size);
    called(it, xdpvm_delete(session, 0, key, key_size, &changed));
}

static void ask_session(struct thread *it, const uint8_t *code, size_t size) {
    struct xdpvm_session session = {0};
    struct xdpvm_ended ended = {0, 0};
    struct xdpvm_streamed streamed = {0, 0, 0, 0, 0};
    struct xdpvm_text_size listed = {0};
    struct xdpvm_map_refusal refusal;
    if (called(it, xdpvm_open(code, size, &session)) != XDPVM_OK) return;
    for (int run = 0; run < RUNS; run++) {
        struct xdpvm_head head = {next(it), (uint32_t)next(it) % 8, 0};
        for (int i = 0; i < 32; i++) it->packet[i] = (uint8_t)next(it);
        called(it, xdpvm_run(&session, &head, it->packet, 14 + next(it) % 1500, &ended));
        take(it, &ended.r0, sizeof ended.r0);
        take(it, it->packet, 32);
        if (code[4] && run % 4 == 0) ask_maps(it, &session, code);
    }
    called(it, xdpvm_stream(&session, it->stream, sizeof it->stream, it->lines, sizeof it->lines, it->sent, sizeof it->sent, &streamed));
    take(it, it->lines, streamed.report);
    if (called(it, xdpvm_list(&session, it->lines, sizeof it->lines, &listed)) == XDPVM_OK && listed.size <= sizeof it->lines) {
        take(it, it->lines, listed.size);
        called(it, xdpvm_fill(&session, it->lines, listed.size, &refusal));
    }
    xdpvm_close(&session);
    it->calls++;
}

/* A packet of the session that all have, from an interface of this thread's own. */
static void ask_shared(struct thread *it) {
    struct xdpvm_head head = {0, (uint32_t)(it - threads), 0};
    struct xdpvm_ended ended;
    pthread_mutex_lock(&lock);
    uint32_t status = xdpvm_run(&shared, &head, it->packet, sizeof it->packet, &ended);
    pthread_mutex_unlock(&lock);
    it->counted += status == XDPVM_OK;
}

static void *work(void *given) {
    struct thread *it = given;
    it->calls = 0, it->answers = 14695981039346656037u, it->state = (uint64_t)(it - threads) * 2654435761u + 88172645463325252u;
    memset(it->packet, 0, sizeof it->packet);
    memset(it->stream, 0, sizeof it->stream);
    memcpy(it->stream, "XPF1", 4);
    for (int i = 0; i < 3; i++) it->stream[4 + 84 * i + 16] = 64;
    while (it->calls < it->most) {
        size_t which = next(it) % count_of_images;
        ask_alone(it, images[which], sizes[which]);
        ask_session(it, images[which], sizes[which]);
        for (int i = 0; i < 8 && !it->is_alone; i++) ask_shared(it);
    }
    return NULL;
}

/* Whether the shared session has counted each packet of each thread. */
static int has_counted(void) {
    int right = 1;
    for (uint32_t i = 0; i < THREADS; i++) {
        uint64_t packets = 0;
        right &= xdpvm_lookup(&shared, 0, (uint8_t *)&i, 4, (uint8_t *)&packets, 8) == XDPVM_OK && packets == threads[i].counted;
    }
    return right;
}

static void read_images(char **paths) {
    for (; *paths && count_of_images < MOST_IMAGES; paths++) {
        FILE *file = fopen(*paths, "rb");
        if (!file) continue;
        sizes[count_of_images] = fread(images[count_of_images], 1, XDPVM_MAX_IMAGE, file);
        count_of_images += sizes[count_of_images] != 0;
        fclose(file);
    }
}

static int run_alone(void) {
    for (int i = 0; i < THREADS; i++) {
        threads[i].is_alone = 1;
        work(&threads[i]);
        printf("%llu ", (unsigned long long)threads[i].answers);
    }
    return 0;
}

static int run_at_once(char **sums) {
    unsigned long calls = 0, counted = 0;
    int differ = 0;
    make_image();
    if (xdpvm_open(image, image_size, &shared)) return 2;
    for (int i = 0; i < THREADS; i++) {
        if (pthread_create(&threads[i].id, NULL, work, &threads[i])) return 2;
    }
    for (int i = 0; i < THREADS; i++) {
        pthread_join(threads[i].id, NULL);
        differ += threads[i].answers != strtoull(sums[i], 0, 10);
        calls += threads[i].calls, counted += threads[i].counted;
    }
    differ += !has_counted();
    xdpvm_close(&shared);
    printf("%lu calls on %d threads, %lu more on one session, %d differ\n", calls, THREADS, counted, differ);
    return differ != 0;
}

int main(int words, char **word) {
    int is_alone = words > 2 && !strcmp(word[2], "alone"), first = is_alone ? 3 : 2 + THREADS;
    if (words <= first) return 2;
    read_images(word + first);
    if (!count_of_images) return 2;
    for (int i = 0; i < THREADS; i++) threads[i].most = strtoul(word[1], 0, 10) / THREADS;
    return is_alone ? run_alone() : run_at_once(word + 2);
}
