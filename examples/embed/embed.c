/* Judges each image that it is given as `xdpvm verify` does, and runs it once. Prints the command's standard output, and
   on standard error what the command says there and how the run ended.

   usage: embed IMAGE.. */
#include "xdpvm.h"
#include <stdio.h>
#include <stdlib.h>

static uint8_t image[XDPVM_MAX_IMAGE + 1], packet[64], text[4096], made[XDPVM_MAX_IMAGE];

static size_t read_file(const char *path, uint8_t *to, size_t room) {
    FILE *file = fopen(path, "rb");
    if (!file) {
        perror(path);
        exit(1);
    }
    size_t size = fread(to, 1, room, file);
    fclose(file);
    return size;
}

/* Prints the verdict. A refusal's first line goes to standard output, as the command prints it, the rest to standard
   error. */
static uint32_t judge(size_t size) {
    struct xdpvm_verdict verdict;
    uint32_t status = xdpvm_verify(image, size, XDPVM_MAX_EXPLORED, text, sizeof text, &verdict);
    if (status == XDPVM_OK) {
        printf("ok bound %u\n", verdict.bound);
    } else if (status == XDPVM_REFUSED) {
        size_t said = verdict.said < sizeof text ? verdict.said : sizeof text, line = 0;
        while (line < said && text[line++] != '\n') {
        }
        fwrite(text, 1, line, stdout);
        fwrite(text + line, 1, said - line, stderr);
    } else {
        puts("out of memory");
    }
    return status;
}

/* Runs the program on a packet of 64 bytes, once more with every access tested, and in a session: they have to agree. */
static void run(size_t size, uint32_t bound) {
    struct xdpvm_head head = {.time = 1000, .interface = 2, .queue = 0};
    struct xdpvm_ended ended, again;
    struct xdpvm_traced_end traced;
    struct xdpvm_session session = {0};
    for (size_t i = 0; i < sizeof packet; i++) packet[i] = (uint8_t)i;
    uint32_t ran = xdpvm_run_once(image, size, &head, packet, sizeof packet, &ended);
    for (size_t i = 0; i < sizeof packet; i++) packet[i] = (uint8_t)i;
    uint32_t tested = xdpvm_trace_once(image, size, &head, packet, sizeof packet, bound, &traced);
    if (ran || tested || traced.kind != XDPVM_EXIT || traced.r0 != ended.r0 || traced.steps != ended.steps) {
        fprintf(stderr, "the machines differ\n");
        exit(1);
    }
    for (size_t i = 0; i < sizeof packet; i++) packet[i] = (uint8_t)i;
    uint32_t opened = xdpvm_open(image, size, &session), second = xdpvm_run(&session, &head, packet, sizeof packet, &again);
    xdpvm_close(&session);
    if (opened || second || again.r0 != ended.r0 || again.steps != ended.steps) {
        fprintf(stderr, "the session differs\n");
        exit(1);
    }
    fprintf(stderr, "action %u, %u steps\n", xdpvm_action(ended.r0), ended.steps);
}

int main(int count, char **words) {
    for (int i = 1; i < count; i++) {
        size_t size = read_file(words[i], image, sizeof image);
        struct xdpvm_verdict verdict;
        if (judge(size) == XDPVM_OK && xdpvm_verify(image, size, XDPVM_MAX_EXPLORED, text, 0, &verdict) == XDPVM_OK) run(size, verdict.bound);
    }
    const char source[] = "r0 = 2\nexit\n";
    struct xdpvm_assembled assembled;
    uint32_t status = xdpvm_assemble((const uint8_t *)source, sizeof source - 1, made, sizeof made, text, sizeof text, &assembled);
    if (status != XDPVM_OK || assembled.size != 24) return 1;
    struct xdpvm_verdict verdict;
    if (xdpvm_verify(made, assembled.size, 1, text, sizeof text, &verdict) != XDPVM_UNDECIDED) return 1;
    if (xdpvm_verify(made, 8, 1, text, 0, &verdict) != XDPVM_REFUSED || verdict.code != 202) return 1;
    return 0;
}
