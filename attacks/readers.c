/* Gives one reader of the library inputs that are made to break it: a program text, an image, a frame stream, a proof table or
   a text of maps. Each answer has to be one that docs/FORMATS.md allows, and the one that comes on another way; an input of at
   most 1,000,000 bytes may take a second of the processor and 300 MB, and no memory is lost. attacks/readers.py builds it, and
   runs it.

   usage: readers READER SECONDS SEED IMAGES INPUT ..

   The inputs are mutated blindly. IMAGES are paths with colons between; the first byte of a stream, a table and a text of maps
   says for which of them it is. With -DGUIDED libFuzzer makes the inputs, and READER and IMAGES are in the environment. */
#define _GNU_SOURCE
#include "../examples/embed/xdpvm.h"
#include <malloc.h>
#include <stdio.h>
#include <stdlib.h>
#include <string.h>
#include <time.h>

enum { MOST_INPUT = 1000000, MOST_EXPLORED = 20000, MOST_IMAGES = 16, ROOM = 8 << 20 };

static const size_t MOST_MEMORY = 300u << 20;
static const double MOST_SECONDS = 1;

static uint8_t image[XDPVM_MAX_IMAGE], other[XDPVM_MAX_IMAGE], why[1 << 14], packet[64];
static uint8_t one[ROOM], two[ROOM], sent[MOST_INPUT + 4], few[40], few_sent[40];
static uint8_t images[MOST_IMAGES][XDPVM_MAX_IMAGE];
static size_t sizes[MOST_IMAGES], count_of_images;
static const struct xdpvm_head head = {7, 2, 0};

static const uint8_t *current;
static size_t current_size, live, peak, largest, most;
static unsigned long tried, accepted, found;
static double slowest;
static const char *reader;

/* ---- the heap of the library */

struct block {
    uint64_t given;
    void *at;
};

static struct block counted(void *at) {
    if (!at) return (struct block){0, (void *)1};
    live += malloc_usable_size(at);
    if (live > peak) peak = live;
    return (struct block){1, at};
}

struct block rattle_alloc(size_t size, size_t align) {
    return counted(malloc(size ? size : align));
}

struct block rattle_realloc(void *old, size_t old_size, size_t size, size_t align) {
    (void)old_size;
    size_t before = malloc_usable_size(old);
    struct block block = counted(realloc(old, size ? size : align));
    if (block.given) live -= before;
    return block;
}

void rattle_dealloc(void *at) {
    live -= malloc_usable_size(at);
    free(at);
}

/* ---- what is wrong */

static void keep(const char *what) {
    char path[64];
    snprintf(path, sizeof path, "found.%s.%lu", reader, ++found);
    FILE *file = fopen(path, "wb");
    if (!file || fwrite(current, 1, current_size, file) != current_size || fclose(file)) perror(path);
    fprintf(stderr, "WRONG %s, %zu bytes, in %s: %s\n", reader, current_size, path, what);
}

static void check(int holds, const char *what) {
    if (!holds) {
        keep(what);
        abort();
    }
}

/* ---- the readers */

/* The canonical text of an image is read as that image. */
static void read_back(const uint8_t *code, size_t size) {
    struct xdpvm_text_size text;
    struct xdpvm_assembled again;
    check(xdpvm_disassemble(code, size, one, sizeof one, &text) == XDPVM_OK && text.size <= sizeof one, "a canonical text");
    check(xdpvm_assemble(one, text.size, other, sizeof other, why, sizeof why, &again) == XDPVM_OK, "the canonical text is refused");
    check(again.size == size && !memcmp(code, other, size), "the canonical text is of another image");
}

static void read_text(const uint8_t *data, size_t size) {
    struct xdpvm_assembled made;
    uint32_t status = xdpvm_assemble(data, size, image, sizeof image, why, sizeof why, &made);
    if (status == XDPVM_REFUSED) {
        check(made.line >= 1 && made.column >= 1 && made.line + made.column <= size + 2, "the place of a refusal");
        check(made.size >= 10 && !memcmp(why, "refused A", 9), "the code of a refusal");
        return;
    }
    check(status == XDPVM_OK && made.size <= sizeof image && made.line == 0 && made.column == 0, "an image of a text");
    accepted++;
    read_back(image, made.size);
}

static void read_image(const uint8_t *data, size_t size) {
    struct xdpvm_described described;
    struct xdpvm_map_row rows[XDPVM_MAX_MAPS];
    struct xdpvm_verdict verdict = {0, 0, 0, 0};
    struct xdpvm_traced_end end;
    uint32_t status = xdpvm_describe(data, size, rows, XDPVM_MAX_MAPS, &described);
    uint32_t judged = xdpvm_verify(data, size, MOST_EXPLORED, why, sizeof why, &verdict);
    check(judged == XDPVM_OK || judged == XDPVM_REFUSED || judged == XDPVM_UNDECIDED, "a verdict");
    int is_none = judged == XDPVM_REFUSED && verdict.code / 100 == 2;
    check(status == (is_none ? XDPVM_REFUSED : XDPVM_OK), "describe and verify");
    if (is_none) return;
    accepted++;
    check(size == 8 + 12 * described.maps + 8 * described.slots && described.version == (uint32_t)data[3] - '0', "a description");
    read_back(data, size);
    check(xdpvm_trace_once(data, size, &head, packet, sizeof packet, 1000, &end) == XDPVM_OK && end.steps <= 1000, "a traced run");
}

/* The frames of a stream and its fault, by docs/FORMATS.md. */
static struct xdpvm_streamed judged(const uint8_t *data, size_t size) {
    struct xdpvm_streamed wanted = {0, 0, 0, 0, 1};
    if (size < 4 || memcmp(data, "XPF", 3) || (data[3] != '1' && data[3] != '2')) return wanted;
    size_t before = data[3] == '1' ? 20 : 24, longest = data[3] == '1' ? 4096 : XDPVM_MAX_PACKET, at = 4;
    for (wanted.fault = 0; at < size && !wanted.fault;) {
        uint32_t length = 0;
        if (size - at >= before) memcpy(&length, data + at + 16, 4);
        wanted.fault = size - at < before ? 2 : length > longest ? 3 : size - at - before < length ? 4 : 0;
        wanted.offset = wanted.fault ? at : 0;
        wanted.frames += !wanted.fault;
        at += before + length;
    }
    return wanted;
}

static void read_stream(const uint8_t *data, size_t size, size_t which) {
    struct xdpvm_streamed told, again, wanted = judged(data, size);
    uint32_t status = xdpvm_run_stream(images[which], sizes[which], data, size, one, sizeof one, sent, sizeof sent, &told);
    check(status == XDPVM_OK && told.report <= sizeof one && told.sent <= (size < 4 ? 4 : size), "a run over a stream");
    check(told.frames == wanted.frames && told.fault == wanted.fault && told.offset == wanted.offset, "the frames and the fault");
    status = xdpvm_run_stream(images[which], sizes[which], data, size, few, sizeof few, few_sent, sizeof few_sent, &again);
    check(status == XDPVM_OK && !memcmp(&told, &again, sizeof told), "a run into little room");
    check(!memcmp(one, few, told.report < sizeof few ? told.report : sizeof few), "the beginning of the report");
    check(!memcmp(sent, few_sent, told.sent < sizeof few_sent ? told.sent : sizeof few_sent), "the beginning of the frames out");
    accepted += !told.fault;
}

static void read_table(const uint8_t *data, size_t size, size_t which) {
    struct xdpvm_rechecked shown = {0, 0, 0, 0};
    struct xdpvm_session session = {0};
    struct xdpvm_traced_end end;
    uint32_t status = xdpvm_recheck(images[which], sizes[which], data, size, why, sizeof why, &shown);
    uint32_t opened = xdpvm_open_with_table(images[which], sizes[which], data, size, &session);
    xdpvm_close(&session);
    check(status == opened && (status == XDPVM_OK || status == XDPVM_REFUSED), "recheck and open_with_table");
    if (status == XDPVM_REFUSED) {
        check(shown.rule >= 1 && shown.rule <= 8 && shown.said >= 10 && !memcmp(why, "refused P", 9), "the rule of a refusal");
        return;
    }
    accepted++;
    status = xdpvm_trace_once(images[which], sizes[which], &head, packet, sizeof packet, shown.bound, &end);
    check(status == XDPVM_OK && end.kind == XDPVM_EXIT, "a program with a table traps, or passes its bound");
}

/* What maps that a text has filled hold fills new ones alike. */
static void read_maps(const uint8_t *data, size_t size, size_t which) {
    struct xdpvm_session first = {0}, second = {0};
    struct xdpvm_map_refusal refusal, none;
    struct xdpvm_text_size listed, again;
    check(xdpvm_open(images[which], sizes[which], &first) == XDPVM_OK, "a session");
    check(xdpvm_open(images[which], sizes[which], &second) == XDPVM_OK, "a second session");
    uint32_t status = xdpvm_fill(&first, data, size, &refusal);
    if (status == XDPVM_REFUSED) {
        check(refusal.line >= 1 && refusal.column >= 1 && refusal.code >= 1 && refusal.code <= 6, "a refusal of a text of maps");
    } else {
        check(status == XDPVM_OK && !refusal.line && !refusal.column && !refusal.code, "a text that fills maps");
        accepted++;
    }
    check(xdpvm_list(&first, one, sizeof one, &listed) == XDPVM_OK && listed.size <= sizeof one, "a list of maps");
    check(xdpvm_fill(&second, one, listed.size, &none) == XDPVM_OK, "a list does not fill new maps");
    check(xdpvm_list(&second, two, sizeof two, &again) == XDPVM_OK && again.size == listed.size, "the list of the new maps");
    check(!memcmp(one, two, listed.size), "the new maps hold something else");
    xdpvm_close(&first);
    xdpvm_close(&second);
}

/* ---- an input */

static double now(void) {
    struct timespec time;
    clock_gettime(CLOCK_THREAD_CPUTIME_ID, &time);
    return (double)time.tv_sec + (double)time.tv_nsec * 1e-9;
}

static void report(void) {
    fprintf(stderr, "%s: %lu inputs, %lu accepted, %lu wrong, the slowest %.3f s, the most memory %.1f MB, the largest %zu bytes\n",
            reader, tried, accepted, found, slowest, (double)most / (1 << 20), largest);
}

int LLVMFuzzerTestOneInput(const uint8_t *data, size_t size) {
    size_t which = size && count_of_images ? data[0] % count_of_images : 0;
    current = data, current_size = size, peak = live;
    double begin = now();
    if (!strcmp(reader, "text")) read_text(data, size);
    if (!strcmp(reader, "image")) read_image(data, size);
    if (!strcmp(reader, "stream") && size) read_stream(data + 1, size - 1, which);
    if (!strcmp(reader, "table") && size) read_table(data + 1, size - 1, which);
    if (!strcmp(reader, "maps") && size) read_maps(data + 1, size - 1, which);
    double took = now() - begin;
    if (took > MOST_SECONDS) keep("over a second");
    if (peak > MOST_MEMORY) keep("over 300 MB");
    check(live == 0, "memory is lost");
    if (took > slowest) slowest = took;
    if (peak > most) most = peak;
    if (size > largest) largest = size;
    tried++;
    return 0;
}

static size_t read_file(const char *path, uint8_t *to, size_t room) {
    FILE *file = fopen(path, "rb");
    if (!file) return 0;
    size_t size = fread(to, 1, room, file);
    fclose(file);
    return size;
}

static void begin(const char *name, char *paths) {
    reader = name;
    for (char *path = strtok(paths, ":"); path && count_of_images < MOST_IMAGES; path = strtok(NULL, ":")) {
        sizes[count_of_images] = read_file(path, images[count_of_images], XDPVM_MAX_IMAGE);
        count_of_images += sizes[count_of_images] != 0;
    }
    atexit(report);
}

#ifdef GUIDED
int LLVMFuzzerInitialize(int *count, char ***words) {
    (void)count, (void)words;
    begin(getenv("READER"), getenv("IMAGES"));
    return 0;
}
#else

/* ---- inputs that are mutated blindly */

enum { SEEDS = 512 };

static uint64_t state;
static uint8_t *seeds[SEEDS], input[MOST_INPUT];
static size_t lengths[SEEDS], seeds_read;

static size_t below(size_t count) {
    state ^= state << 13;
    state ^= state >> 7;
    state ^= state << 17;
    return (size_t)(state >> 20) % count;
}

static size_t least(size_t a, size_t b) {
    return a < b ? a : b;
}

/* Puts bytes in at a place, as far as there is room; the size then. */
static size_t put(size_t size, size_t at, const uint8_t *bytes, size_t count) {
    count = least(count, MOST_INPUT - size);
    memmove(input + at + count, input + at, size - at);
    memmove(input + at, bytes, count);
    return size + count;
}

/* One change: of a byte or of four, some left out, twice or many times there, some of another seed, or a cut. */
static size_t mutate(size_t size) {
    static uint8_t piece[4096];
    static const uint32_t numbers[] = {0, 1, 0x7fffffff, 0x80000000, 0xffffffff, 4096, 9216, 65536};
    size_t at = below(size + 1), length = least(1 + below(64), size - at), seed = below(seeds_read), from;
    switch (below(8)) {
    case 0: if (at < size) input[at] = (uint8_t)below(256); return size;
    case 1: if (at < size) input[at] ^= (uint8_t)(1u << below(8)); return size;
    case 2: if (at + 4 <= size) memcpy(input + at, &numbers[below(8)], 4); return size;
    case 3: memmove(input + at, input + at + length, size - at - length); return size - length;
    case 4: memcpy(piece, input + at, length); return put(size, at, piece, length);
    case 5:
        from = below(lengths[seed]);
        return put(size, at, seeds[seed] + from, least(1 + below(sizeof piece), lengths[seed] - from));
    case 6:
        memcpy(piece, input + at, length);
        for (size_t times = below(8) ? below(64) : MOST_INPUT; times-- > 0 && length && size < MOST_INPUT;) {
            memcpy(input + size, piece, least(length, MOST_INPUT - size));
            size += least(length, MOST_INPUT - size);
        }
        return size;
    default: return below(4) ? size : at;
    }
}

int main(int words, char **word) {
    if (words < 6) return 2;
    begin(word[1], word[4]);
    state = strtoull(word[3], 0, 10) * 2654435761u + 88172645463325252u;
    for (int i = 5; i < words && seeds_read < SEEDS; i++) {
        lengths[seeds_read] = read_file(word[i], input, sizeof input);
        if (!lengths[seeds_read] || !(seeds[seeds_read] = malloc(lengths[seeds_read]))) continue;
        memcpy(seeds[seeds_read], input, lengths[seeds_read]);
        seeds_read++;
    }
    if (!seeds_read) return 2;
    for (clock_t end = clock() + atoi(word[2]) * CLOCKS_PER_SEC; clock() < end;) {
        size_t seed = below(seeds_read), size = lengths[seed];
        memcpy(input, seeds[seed], size);
        for (size_t i = below(4) + 1; i > 0; i--) size = mutate(size);
        LLVMFuzzerTestOneInput(input, size);
    }
    return found != 0;
}
#endif
