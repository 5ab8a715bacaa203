/* What libFuzzer or AFL++ calls: an accepted program runs, its traced run and its session agree, its maps
   keep what is written between two runs, and all calls agree in the verdict.

   The input's first byte says by its lowest bit whether a text (1) or an image (0) is at byte 12; before that come the head
   and the length of the packet. With bit 1 the image ends after as many bytes as bytes 10 and 11 say, and what follows it is
   a stream of frames (bit 2: 0) or a proof table (1). With coverage.py's OBJECT:
   clang -fsanitize=fuzzer fuzz.c OBJECT liblibc_c.a. Without, -DDRIVE gives a driver that mutates files by itself:
   fuzz SECONDS SEED FILE.. */
#include "xdpvm.h"
#include <stdio.h>
#include <stdlib.h>
#include <string.h>

static uint8_t image[XDPVM_MAX_IMAGE], why[1 << 14];
static uint8_t one[XDPVM_MAX_PACKET], two[XDPVM_MAX_PACKET], three[XDPVM_MAX_PACKET];
static unsigned long tried, accepted, traced_alone, undecided, rechecks, streams, changes;

/* No input takes seconds: what is explored up to here takes milliseconds. */
#define MOST_EXPLORED 20000

static void check(int holds, const char *what) {
    if (!holds) {
        fprintf(stderr, "DIFFER: %s\n", what);
        abort();
    }
}

static void report(void) {
    fprintf(stderr, "tried %lu, accepted %lu, traced alone %lu, undecided %lu, streams %lu, tables %lu, maps changed %lu\n", tried,
            accepted, traced_alone, undecided, streams, rechecks, changes);
}

/* A refused program may be traced, and has to end in one of the three ways. */
static void trace_refused(const uint8_t *code, size_t size, const struct xdpvm_head *head, size_t length) {
    struct xdpvm_traced_end end = {0, 0, 9, 0};
    uint32_t status = xdpvm_trace_once(code, size, head, two, length, 10000, &end);
    if (status != XDPVM_OK) return;
    traced_alone++;
    check(end.kind <= XDPVM_LIMIT && end.steps <= 10000 && (end.kind == XDPVM_TRAP) == (end.reason != 0), "an end");
}

/* A key that is updated, or deleted, is there for a look-up, or is not; the next keys are where a map has some. */
static void change_map(struct xdpvm_session *session, const uint8_t *code, size_t map) {
    static uint8_t value[4096], found[4096], key[65], next[64];
    const uint8_t *row = code + 8 + 12 * map;
    size_t keys = row[2] | (size_t)row[3] << 8, values = row[4] | (size_t)row[5] << 8;
    int is_array = row[0] == 2;
    struct xdpvm_changed changed = {9};
    changes++;
    memcpy(key, three, keys);
    memcpy(value, three, values);
    if (is_array) key[1] = key[2] = key[3] = 0;
    uint32_t before = xdpvm_lookup(session, map, key, keys, found, values);
    check(before == XDPVM_OK || before == XDPVM_ABSENT, "a look-up");
    check(xdpvm_update(session, map, key, keys, value, values, three[7] % 4, &changed) == XDPVM_OK, "an update");
    uint64_t answer = changed.answer;
    uint32_t after = xdpvm_lookup(session, map, key, keys, found, values);
    check(after == (answer == 0 ? XDPVM_OK : before), "a look-up after an update");
    check(answer != 0 || !memcmp(found, value, values), "the value after an update");
    uint32_t first = xdpvm_next(session, map, 0, next, keys, found, values);
    check(first == XDPVM_OK || (first == XDPVM_ABSENT && after == XDPVM_ABSENT), "the first key");
    check(xdpvm_delete(session, map, key, keys, &changed) == XDPVM_OK, "a delete");
    check((changed.answer == 0) == (!is_array && after == XDPVM_OK), "the answer of a delete");
    check(is_array || xdpvm_lookup(session, map, key, keys, found, values) == XDPVM_ABSENT, "a look-up after a delete");
    check(xdpvm_lookup(session, map, key, keys + 1, found, values) == XDPVM_WRONG, "a key of another size");
    xdpvm_update(session, map, key, keys, value, values, 0, &changed);
}

static void compare(const uint8_t *code, size_t size, const struct xdpvm_head *head, size_t length) {
    struct xdpvm_verdict verdict = {0, 0, 0, 0};
    struct xdpvm_ended ended = {0, 0};
    struct xdpvm_traced_end traced = {0, 0, 9, 0};
    uint32_t judged = xdpvm_verify(code, size, MOST_EXPLORED, why, sizeof why, &verdict);
    if (judged == XDPVM_UNDECIDED) {
        undecided++;
        trace_refused(code, size, head, length);
        return;
    }
    uint32_t ran = xdpvm_run_once(code, size, head, one, length, &ended);
    if (judged == XDPVM_MEMORY || ran == XDPVM_MEMORY) return;
    check(judged == ran, "verify and run");
    if (judged == XDPVM_REFUSED) {
        trace_refused(code, size, head, length);
        return;
    }
    accepted++;
    check(verdict.bound >= 1 && verdict.bound <= XDPVM_MAX_STEPS && ended.steps <= verdict.bound, "the bound");
    uint32_t tested = xdpvm_trace_once(code, size, head, two, length, verdict.bound, &traced);
    if (tested == XDPVM_MEMORY) return;
    check(tested == XDPVM_OK && traced.kind == XDPVM_EXIT, "an accepted program traps, or passes its bound");
    check(traced.r0 == ended.r0 && traced.steps == ended.steps, "r0 or steps");
    check(!memcmp(one, two, length), "the packets");
    struct xdpvm_session session = {0};
    uint32_t opened = xdpvm_open(code, size, &session);
    if (opened == XDPVM_MEMORY) return;
    uint32_t again = xdpvm_run(&session, head, three, length, &ended);
    check(opened == XDPVM_OK && again == XDPVM_OK, "verify and open");
    check(traced.r0 == ended.r0 && traced.steps == ended.steps && !memcmp(three, two, length), "a run in a session");
    for (size_t map = 0; map < (code[4] | (size_t)code[5] << 8); map++) change_map(&session, code, map);
    again = xdpvm_run(&session, head, three, length, &ended);
    check(again == XDPVM_OK && ended.steps <= verdict.bound, "a run on maps that were changed");
    xdpvm_close(&session);
}

/* A table that passes shows what a verified program has: the traced run exits within its bound. */
static void recheck(const uint8_t *code, size_t size, const uint8_t *table, size_t count, const struct xdpvm_head *head, size_t length) {
    struct xdpvm_rechecked rechecked = {0, 0, 0, 0};
    struct xdpvm_traced_end end = {0, 0, 9, 0};
    struct xdpvm_session session = {0};
    uint32_t shown = xdpvm_recheck(code, size, table, count, why, sizeof why, &rechecked);
    uint32_t opened = xdpvm_open_with_table(code, size, table, count, &session);
    xdpvm_close(&session);
    check(shown == opened || shown == XDPVM_MEMORY || opened == XDPVM_MEMORY, "recheck and open_with_table");
    if (shown != XDPVM_OK) return;
    rechecks++;
    check(rechecked.bound >= 1 && rechecked.bound <= XDPVM_MAX_STEPS, "the bound of a table");
    uint32_t tested = xdpvm_trace_once(code, size, head, two, length, rechecked.bound, &end);
    check(tested == XDPVM_MEMORY || (tested == XDPVM_OK && end.kind == XDPVM_EXIT), "a program with a table traps, or passes its bound");
}

/* A run over a stream writes the same into buffers of any size: each gets the front of it. */
static void stream(const uint8_t *code, size_t size, const uint8_t *frames, size_t count) {
    static uint8_t report[2][1 << 16], sent[2][1 << 16];
    struct xdpvm_verdict verdict = {0, 0, 0, 0};
    struct xdpvm_streamed told[2] = {{0, 0, 0, 0, 0}, {0, 0, 0, 0, 0}};
    if (xdpvm_verify(code, size, MOST_EXPLORED, why, 0, &verdict) != XDPVM_OK) return;
    uint32_t first = xdpvm_run_stream(code, size, frames, count, report[0], sizeof report[0], sent[0], sizeof sent[0], &told[0]);
    uint32_t second = xdpvm_run_stream(code, size, frames, count, report[1], 40, sent[1], 40, &told[1]);
    if (first == XDPVM_MEMORY || second == XDPVM_MEMORY) return;
    streams++;
    check(first == XDPVM_OK && second == XDPVM_OK, "verify and run_stream");
    check(!memcmp(&told[0], &told[1], sizeof told[0]) && told[0].fault <= 6, "what is told of a stream");
    check(told[0].sent <= (count < 4 ? 4 : count) && told[0].report >= 6, "the sizes of the report and the frames out");
    check(!memcmp(report[0], report[1], told[0].report < 40 ? told[0].report : 40), "the reports");
    check(!memcmp(sent[0], sent[1], told[0].sent < 40 ? told[0].sent : 40), "the frames out");
}

int LLVMFuzzerTestOneInput(const uint8_t *data, size_t count) {
    if (!tried) atexit(report);
    tried++;
    if (count < 12) return 0;
    struct xdpvm_head head = {data[1], data[2], data[3]};
    size_t length = (data[4] | (size_t)data[5] << 8) % (XDPVM_MAX_PACKET + 1);
    for (size_t i = 0; i < length; i++) one[i] = two[i] = three[i] = (uint8_t)(data[6 + i % 6] + i / 6);
    const uint8_t *code = data + 12;
    size_t size = count - 12;
    if (data[0] & 2) {
        size_t image_size = (data[10] | (size_t)data[11] << 8) % (size + 1);
        if (data[0] & 4) {
            recheck(code, image_size, code + image_size, size - image_size, &head, length);
        } else {
            stream(code, image_size, code + image_size, size - image_size);
        }
        return 0;
    }
    if (data[0] & 1) {
        struct xdpvm_assembled assembled;
        if (xdpvm_assemble(code, size, image, sizeof image, why, sizeof why, &assembled) != XDPVM_OK) return 0;
        check(assembled.size <= sizeof image, "the size of an image");
        code = image;
        size = assembled.size;
    }
    compare(code, size, &head, length);
    return 0;
}

#ifdef DRIVE
#include <time.h>

static uint64_t state;
static uint8_t seeds[64][8192], input[8192];
static size_t sizes[64];

static size_t below(size_t count) {
    state ^= state << 13;
    state ^= state >> 7;
    state ^= state << 17;
    return (size_t)(state >> 20) % count;
}

/* One change: a byte, a bit, a byte of the head, or eight bytes copied from a seed. */
static void mutate(size_t size, size_t count) {
    size_t at = 12 + below(size - 12), other = below(count);
    switch (below(4)) {
    case 0: input[at] = (uint8_t)below(256); break;
    case 1: input[at] ^= (uint8_t)(1u << below(8)); break;
    case 2: input[1 + below(11)] = (uint8_t)below(256); break;
    case 3: {
        size_t to = 20 + 8 * below((size - 12) / 8), from = 20 + 8 * below((sizes[other] - 12) / 8);
        if (to + 8 <= size && from + 8 <= sizes[other]) memcpy(input + to, seeds[other] + from, 8);
    }
    }
}

int main(int words, char **word) {
    if (words < 4) return 1;
    state = strtoull(word[2], 0, 10) * 2654435761u + 88172645463325252u;
    size_t count = 0;
    for (int i = 3; i < words && count < 64; i++) {
        FILE *file = fopen(word[i], "rb");
        if (!file) continue;
        sizes[count] = 12 + fread(seeds[count] + 12, 1, 8180, file);
        seeds[count][4] = 64;
        count += sizes[count] >= 36;
        fclose(file);
    }
    if (!count) return 1;
    for (clock_t end = clock() + atoi(word[1]) * CLOCKS_PER_SEC; clock() < end;) {
        size_t seed = below(count);
        memcpy(input, seeds[seed], sizes[seed]);
        for (size_t i = below(4) + 1; i > 0; i--) mutate(sizes[seed], count);
        LLVMFuzzerTestOneInput(input, sizes[seed]);
    }
    return 0;
}
#endif
