/* A program whose map the host fills and reads: it counts the packets of each interface in a hash map, between two of which
   the host looks. Prints each count that it finds.

   usage: maps */
#include "xdpvm.h"
#include <stdio.h>
#include <stdlib.h>
#include <string.h>

static const char TEXT[] = "map hash 4 8 8\n"
                           "        r2 = *(u32 *)(r1 + 12)\n"
                           "        *(u32 *)(r10 - 4) = r2\n"
                           "        r1 = map_by_idx(0)\n"
                           "        r2 = r10\n"
                           "        r2 += -4\n"
                           "        call 1\n"
                           "        if r0 == 0 goto other\n"
                           "        r1 = *(u64 *)(r0 + 0)\n"
                           "        r1 += 1\n"
                           "        *(u64 *)(r0 + 0) = r1\n"
                           "        r0 = 2\n"
                           "        exit\n"
                           "other:  r0 = 1\n"
                           "        exit\n";

static void need(int holds, const char *what) {
    if (!holds) {
        fprintf(stderr, "maps: %s\n", what);
        exit(1);
    }
}

/* The packets of an interface that the program has seen. */
static uint64_t count(struct xdpvm_session *session, uint32_t interface) {
    uint64_t packets = 0;
    uint32_t status = xdpvm_lookup(session, 0, (uint8_t *)&interface, 4, (uint8_t *)&packets, 8);
    need(status == XDPVM_OK || status == XDPVM_ABSENT, "a look-up");
    return packets;
}

/* What the map holds, as text, fills a second session; a stream goes on from it. */
static void texts(struct xdpvm_session *session, const uint8_t *image, size_t image_size) {
    static const uint8_t wrong[] = "map 0 01000000 0000000000000000\nmap 1 01000000 0000000000000000\n";
    static uint8_t lines[4096], frames[4 + 21], report[4096], sent[64];
    struct xdpvm_text_size listed, text;
    struct xdpvm_session other = {0};
    struct xdpvm_map_refusal filled;
    struct xdpvm_streamed streamed;
    struct xdpvm_described found;
    struct xdpvm_map_row row;
    need(xdpvm_list(session, lines, sizeof lines, &listed) == XDPVM_OK && listed.size == 64, "a list");
    need(xdpvm_open(image, image_size, &other) == XDPVM_OK, "a second session");
    need(xdpvm_fill(&other, lines, listed.size, &filled) == XDPVM_OK && filled.code == 0, "a text that fills the map");
    need(count(&other, 1) == 3 && count(&other, 2) == 3, "the counts of the second session");
    need(xdpvm_fill(&other, wrong, sizeof wrong - 1, &filled) == XDPVM_REFUSED && filled.code == 2, "a map that has no row");
    need(filled.line == 2 && filled.column == 5 && count(&other, 1) == 0, "the line before it");
    memcpy(frames, "XPF1", 4);
    frames[4 + 8] = 2, frames[4 + 16] = 1;
    need(xdpvm_stream(&other, frames, sizeof frames, report, sizeof report, sent, sizeof sent, &streamed) == XDPVM_OK, "a stream");
    need(streamed.frames == 1 && streamed.sent == sizeof frames && streamed.fault == 0, "its frame");
    need(streamed.report < sizeof report && memcmp(report, "0 PASS 1 12\n", 12) == 0 && count(&other, 2) == 4, "its report");
    xdpvm_close(&other);
    need(xdpvm_describe(image, image_size, &row, 1, &found) == XDPVM_OK && found.maps == 1 && found.version == 1, "a description");
    need(row.kind == XDPVM_HASH && row.key_size == 4 && row.value_size == 8 && row.entries == 8, "a map row");
    need(xdpvm_disassemble(image, image_size, report, sizeof report, &text) == XDPVM_OK && text.size < sizeof report, "a text");
    need(memcmp(report, "map hash 4 8 8\n", 15) == 0, "the first line of the text");
}

int main(void) {
    static uint8_t image[XDPVM_MAX_IMAGE], why[4096], packet[60];
    struct xdpvm_assembled made;
    struct xdpvm_session session = {0};
    struct xdpvm_changed changed;
    struct xdpvm_ended ended;
    const size_t size = strlen(XDPVM_VERSION);
    need(xdpvm_version(why, sizeof why) == size && memcmp(why, XDPVM_VERSION, size) == 0, "the version of the header");
    uint32_t status = xdpvm_assemble((const uint8_t *)TEXT, strlen(TEXT), image, sizeof image, why, sizeof why, &made);
    if (status == XDPVM_REFUSED) fwrite(why, 1, made.size < sizeof why ? made.size : sizeof why, stderr);
    need(status == XDPVM_OK && xdpvm_open(image, made.size, &session) == XDPVM_OK, "the program");

    /* the host says which interfaces count */
    for (uint32_t interface = 1; interface <= 2; interface++) {
        uint64_t none = 0;
        status = xdpvm_update(&session, 0, (uint8_t *)&interface, 4, (uint8_t *)&none, 8, 1, &changed);
        need(status == XDPVM_OK && changed.answer == 0, "an update");
    }
    for (uint32_t i = 0; i < 9; i++) {
        struct xdpvm_head head = {.time = i, .interface = i % 3, .queue = 0};
        need(xdpvm_run(&session, &head, packet, sizeof packet, &ended) == XDPVM_OK, "a run");
        need(xdpvm_action(ended.r0) == (i % 3 ? 2u : 1u), "an action");
    }
    need(count(&session, 0) == 0 && count(&session, 1) == 3 && count(&session, 2) == 3, "the counts");
    uint32_t key;
    uint64_t value;
    for (size_t rank = 0; xdpvm_next(&session, 0, rank, (uint8_t *)&key, 4, (uint8_t *)&value, 8) == XDPVM_OK; rank++) {
        printf("interface %u: %llu packets\n", key, (unsigned long long)value);
    }
    texts(&session, image, made.size);
    key = 1;
    need(xdpvm_delete(&session, 0, (uint8_t *)&key, 4, &changed) == XDPVM_OK && changed.answer == 0, "a delete");
    need(xdpvm_lookup(&session, 0, (uint8_t *)&key, 3, (uint8_t *)&value, 8) == XDPVM_WRONG, "a key of another size");
    need(xdpvm_lookup(&session, 1, (uint8_t *)&key, 4, (uint8_t *)&value, 8) == XDPVM_WRONG, "a map that is not there");
    xdpvm_close(&session);
    need(xdpvm_run(&session, &(struct xdpvm_head){0, 0, 0}, packet, sizeof packet, &ended) == XDPVM_WRONG, "a closed session");
    return 0;
}
