/* A verified filter with its maps, by the library alone. */
#define _GNU_SOURCE
#include "bridge.h"
#include <errno.h>
#include <stdlib.h>
#include <string.h>

/* The bytes of a whole file, which the caller frees, and a zero byte after them. */
static uint8_t *read_file(const char *path, size_t *size) {
    FILE *file = fopen(path, "rb");
    uint8_t *bytes = NULL, *more;
    *size = 0;
    while (file && !feof(file) && !ferror(file) && (more = realloc(bytes, *size + 65536))) {
        bytes = more;
        *size += fread(bytes + *size, 1, 65535, file);
    }
    if (file && feof(file)) bytes[*size] = 0;
    else tell("%s: %s", path, strerror(errno)), free(bytes), bytes = NULL;
    if (file) fclose(file);
    return bytes;
}

/* Says on one line why an image or its table is refused: the first line of what `xdpvm verify` or `recheck` prints. */
static int refused(const struct sources *from, const uint8_t *image, size_t size, const uint8_t *table, size_t table_size) {
    char why[4096] = "";
    struct xdpvm_rechecked shown;
    struct xdpvm_verdict verdict;
    if (table) xdpvm_recheck(image, size, table, table_size, (uint8_t *)why, sizeof why - 1, &shown);
    else xdpvm_verify(image, size, XDPVM_MAX_EXPLORED, (uint8_t *)why, sizeof why - 1, &verdict);
    tell("%s: refused: %.*s", from->image, (int)strcspn(why, "\n"), why);
    return REFUSED;
}

/* Makes comments of the lines of those maps that are kept from `before`, or that are not. A zero byte ends the text. */
static void leave_out(uint8_t *text, const struct filter *filter, const struct filter *before, int kept) {
    for (char *line = (char *)text; line; line = strchr(line, '\n')) {
        line += *line == '\n';
        const size_t map = strncmp(line, "map ", 4) ? SIZE_MAX : strtoul(line + 4, NULL, 10);
        const int is_kept = map < filter->maps && map < before->maps && !memcmp(&filter->rows[map], &before->rows[map], sizeof filter->rows[map]);
        if (map != SIZE_MAX && is_kept == kept) *line = '#';
    }
}

/* Fills the maps by the lines of a file of contents. */
static int fill(struct filter *filter, const char *path, const uint8_t *text, size_t size) {
    static const char *const wrong[] = {"", "no line of a map", "there is no map of this number", "the key has another size than the map's",
                                        "the value has another size than the map's", "the map has no room for this key",
                                        "the line is longer than any of these maps"};
    struct xdpvm_map_refusal why;
    if (xdpvm_fill(&filter->session, text, size, &why) == XDPVM_OK) return 0;
    tell("%s: line %zu: %s", path, why.line, wrong[why.code]);
    return REFUSED;
}

/* The lines of all maps, which the caller frees, and a zero byte after them. */
static uint8_t *listed(struct filter *filter, size_t *size) {
    struct xdpvm_text_size all = {0};
    uint8_t none, *lines = NULL;
    if (xdpvm_list(&filter->session, &none, 0, &all) == XDPVM_OK && (lines = malloc(all.size + 1))) {
        if (xdpvm_list(&filter->session, lines, all.size, &all) != XDPVM_OK) free(lines), lines = NULL;
    }
    if (!lines) tell("out of memory");
    else lines[*size = all.size] = 0;
    return lines;
}

static int opened(struct filter *filter, const struct sources *from, const uint8_t *image, size_t size, const uint8_t *table, size_t table_size) {
    struct xdpvm_described found;
    uint32_t is = table ? xdpvm_open_with_table(image, size, table, table_size, &filter->session) : xdpvm_open(image, size, &filter->session);
    if (is == XDPVM_REFUSED) return refused(from, image, size, table, table_size);
    if (is == XDPVM_OK) is = xdpvm_describe(image, size, filter->rows, XDPVM_MAX_MAPS, &found);
    if (is == XDPVM_OK) filter->maps = found.maps;
    else tell("out of memory");
    return is == XDPVM_OK ? 0 : NO_MEMORY;
}

int filter_load(struct filter *filter, const struct sources *from, const struct filter *before) {
    size_t size = 0, table_size = 0, text_size = 0;
    *filter = (struct filter){0};
    uint8_t *image = read_file(from->image, &size), *table = from->table ? read_file(from->table, &table_size) : NULL, *text = NULL;
    int status = !image || (from->table && !table) ? UNREADABLE : 0;
    if (!status) status = opened(filter, from, image, size, table, table_size);
    if (!status && from->contents && !(text = read_file(from->contents, &text_size))) status = UNREADABLE;
    if (!status && text) status = fill(filter, from->contents, text, text_size);
    if (!status && text && before) { /* lines of maps that are kept are judged, and do nothing */
        xdpvm_close(&filter->session);
        leave_out(text, filter, before, 1);
        status = opened(filter, from, image, size, table, table_size);
        if (!status) status = fill(filter, from->contents, text, text_size);
    }
    if (status) xdpvm_close(&filter->session);
    free(image);
    free(table);
    free(text);
    return status;
}

int filter_follow(struct filter *filter, struct filter *before) {
    size_t size = 0;
    struct xdpvm_map_refusal why;
    uint8_t *lines = listed(before, &size);
    if (lines) {
        leave_out(lines, filter, before, 0);
        xdpvm_fill(&filter->session, lines, size, &why);
    }
    xdpvm_close(lines ? &before->session : &filter->session);
    free(lines);
    return lines ? 0 : -1;
}

void filter_print(struct filter *filter, FILE *to) {
    size_t size = 0;
    uint8_t *lines = listed(filter, &size);
    if (lines) fwrite(lines, 1, size, to);
    free(lines);
}
