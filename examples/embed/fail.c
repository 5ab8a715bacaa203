/* Every request for memory refused, one after the other, in every call that takes some: the answer is XDPVM_MEMORY, or what
   it is with all memory; no memory is lost, and nothing is written. On an open session no call asks for any, but those that
   list the maps or run a stream. Linked with the library alone, whose three heap functions are defined here.

   usage: fail IMAGE.. (with a text beside each image that is to be assembled, NAME.text, and a proof table, NAME.table) */
#include "xdpvm.h"
#include <stdio.h>
#include <stdlib.h>
#include <string.h>

struct block {
    uint64_t given;
    void *at;
};

static long left = -1, live, requests;

static struct block refused(void) {
    return (struct block){0, (void *)1};
}

struct block rattle_alloc(size_t size, size_t align) {
    requests++;
    if (left == 0) return refused();
    if (left > 0) left--;
    void *at = malloc(size ? size : align);
    if (!at) return refused();
    live++;
    return (struct block){1, at};
}

struct block rattle_realloc(void *old, size_t old_size, size_t size, size_t align) {
    (void)old_size;
    requests++;
    if (left == 0) return refused();
    if (left > 0) left--;
    void *at = realloc(old, size ? size : align);
    return at ? (struct block){1, at} : refused();
}

void rattle_dealloc(void *at) {
    live--;
    free(at);
}

static uint8_t image[1 << 16], text[1 << 16], frames[4 + 20 + 64], table[1 << 16];
static uint8_t why[1 << 14], made[1 << 16], packet[64];
static size_t image_size, text_size, table_size;
static const struct xdpvm_head head = {7, 2, 0};

static size_t read_file(const char *path, uint8_t *to, size_t room) {
    FILE *file = fopen(path, "rb");
    if (!file) return 0;
    size_t size = fread(to, 1, room, file);
    fclose(file);
    return size;
}

enum { ASSEMBLE, DESCRIBE, DISASSEMBLE, VERIFY, RUN_ONCE, TRACE_ONCE, RUN_STREAM, RECHECK, OPEN, OPEN_WITH_TABLE, LIST, STREAM, OPENED, CALLS };

static const char *const NAMES[CALLS] = {"assemble", "describe", "disassemble", "verify", "run_once", "trace_once", "run_stream",
                                         "recheck", "open", "open_with_table", "list", "stream",
                                         "run, lookup, update, delete, next, fill"};

/* The status of opening a session; where that is not XDPVM_OK, the session is still closed. */
static uint32_t opened(int with_table, struct xdpvm_session *session) {
    uint32_t status = with_table ? xdpvm_open_with_table(image, image_size, table, table_size, session)
                                 : xdpvm_open(image, image_size, session);
    return status != XDPVM_OK && session->at ? 99 : status;
}

/* The greatest status of calls on a session that was opened with all memory. The image's first map row says which sizes
   its keys and values have. */
static uint32_t call_session(void) {
    struct xdpvm_session session = {0};
    struct xdpvm_ended ended;
    struct xdpvm_changed changed;
    struct xdpvm_map_refusal filled;
    static uint8_t key[64], value[1 << 12];
    long some = left;
    left = -1;
    uint32_t most = opened(0, &session);
    left = some, requests = 0;
    if (most == XDPVM_OK) {
        size_t key_size = image[10], value_size = image[12] | (size_t)image[13] << 8;
        int maps = image[4] != 0;
        uint32_t answers[6] = {
            xdpvm_run(&session, &head, made, 64, &ended),
            maps ? xdpvm_update(&session, 0, key, key_size, value, value_size, 0, &changed) : 0,
            maps ? xdpvm_lookup(&session, 0, key, key_size, value, value_size) : 0,
            maps ? xdpvm_next(&session, 0, 0, key, key_size, value, value_size) : 0,
            maps ? xdpvm_delete(&session, 0, key, key_size, &changed) : 0,
            xdpvm_fill(&session, (const uint8_t *)"# no line of a map", 18, &filled),
        };
        for (int i = 0; i < 6; i++) most = answers[i] > most ? answers[i] : most;
        xdpvm_close(&session);
    }
    return most;
}

/* The status of a call that takes memory, on a session that was opened with all memory. Where memory is refused, the session
   stays open, and a later call succeeds. */
static uint32_t call_open(int which) {
    struct xdpvm_session session = {0};
    struct xdpvm_text_size listed = {0};
    struct xdpvm_streamed streamed = {0, 0, 0, 0, 0};
    struct xdpvm_ended ended;
    struct xdpvm_changed changed;
    static uint8_t other[64], key[64], value[1 << 12];
    long some = left;
    left = -1;
    uint32_t status = opened(0, &session);
    if (status != XDPVM_OK) return status;
    if (image[4]) xdpvm_update(&session, 0, key, image[10], value, image[12] | (size_t)image[13] << 8, 0, &changed);
    left = some, requests = 0;
    status = which == LIST ? xdpvm_list(&session, made, sizeof made, &listed)
                           : xdpvm_stream(&session, frames, sizeof frames, made, sizeof made, why, sizeof why, &streamed);
    long asked = requests;
    left = -1;
    if (status == XDPVM_MEMORY && (listed.size || streamed.report || streamed.sent || streamed.frames)) status = 98;
    if (xdpvm_run(&session, &head, other, sizeof other, &ended) != XDPVM_OK) status = 97;
    xdpvm_close(&session);
    requests = asked;
    return status;
}

/* One call, into buffers that are zero-filled before it; a status of 5 has to leave them so. */
static uint32_t call(int which) {
    struct xdpvm_assembled assembled = {0, 0, 0};
    struct xdpvm_described described = {0, 0, 0};
    struct xdpvm_map_row rows[XDPVM_MAX_MAPS];
    struct xdpvm_text_size listed = {0};
    struct xdpvm_verdict verdict = {0, 0, 0, 0};
    struct xdpvm_ended ended = {0, 0};
    struct xdpvm_traced_end traced = {0, 0, 0, 0};
    struct xdpvm_streamed streamed = {0, 0, 0, 0, 0};
    struct xdpvm_rechecked rechecked = {0, 0, 0, 0};
    struct xdpvm_session session = {0};
    uint32_t status;
    switch (which) {
    case ASSEMBLE: return xdpvm_assemble(text, text_size, made, sizeof made, why, sizeof why, &assembled);
    case DESCRIBE: return xdpvm_describe(image, image_size, rows, XDPVM_MAX_MAPS, &described);
    case DISASSEMBLE: return xdpvm_disassemble(image, image_size, made, sizeof made, &listed);
    case VERIFY: return xdpvm_verify(image, image_size, XDPVM_MAX_EXPLORED, why, sizeof why, &verdict);
    case RUN_ONCE: return xdpvm_run_once(image, image_size, &head, packet, sizeof packet, &ended);
    case TRACE_ONCE: return xdpvm_trace_once(image, image_size, &head, packet, sizeof packet, 100000, &traced);
    case RUN_STREAM:
        return xdpvm_run_stream(image, image_size, frames, sizeof frames, made, sizeof made, why, sizeof why, &streamed);
    case RECHECK: return xdpvm_recheck(image, image_size, table, table_size, why, sizeof why, &rechecked);
    case LIST: case STREAM: return call_open(which);
    case OPENED: return call_session();
    default:
        status = opened(which == OPEN_WITH_TABLE, &session);
        xdpvm_close(&session);
        return status;
    }
}

static int is_zero(const uint8_t *bytes, size_t size) {
    while (size > 0 && bytes[size - 1] == 0) size--;
    return size == 0;
}

int main(int words, char **word) {
    int failed = 0;
    memcpy(frames, "XPF1", 4);
    frames[4 + 16] = 64;
    for (int i = 1; i < words; i++) {
        char path[512];
        image_size = read_file(word[i], image, sizeof image);
        snprintf(path, sizeof path, "%.*stext", (int)(strlen(word[i]) - 5), word[i]);
        text_size = read_file(path, text, sizeof text);
        snprintf(path, sizeof path, "%.*stable", (int)(strlen(word[i]) - 5), word[i]);
        table_size = read_file(path, table, sizeof table);
        if (!table_size) {
            memset(table, 0, table_size = 384);
            memcpy(table, "XPT1\2", 5);
        }
        for (int which = 0; which < CALLS; which++) {
            left = -1;
            uint32_t wanted = call(which), status;
            long refusals = 0, others = 0, lost = 0, written = 0;
            for (long n = 0;; n++) {
                memset(why, 0, sizeof why), memset(made, 0, sizeof made), memset(packet, 0, sizeof packet);
                left = n, requests = 0, live = 0;
                status = call(which);
                lost += live != 0;
                if (requests <= n) break;
                refusals++;
                if (status == XDPVM_MEMORY) {
                    written += !is_zero(why, sizeof why) || !is_zero(made, sizeof made) || !is_zero(packet, sizeof packet);
                } else {
                    others += status != wanted;
                }
            }
            printf("%s %s: status %u, %ld requests refused; another status %ld, lost %ld, written %ld\n", word[i], NAMES[which],
                   wanted, refusals, others, lost, written);
            failed |= status != wanted || others || lost || written;
        }
    }
    return failed;
}
