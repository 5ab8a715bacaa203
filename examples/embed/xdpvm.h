/* xdpvm in your own process: verifies BPF programs of type XDP, and runs them on packets.

   Link libxdpvm_c.a and the toolchain's liblibc_c.a (examples/embed/build.sh; docs/EMBEDDING.md).

   Every call tests its arguments and returns a status. What it returns is proved, as long as you keep to these rules:

   - Each pointer is to memory of yours of the length beside it, for the whole call. None is NULL, also where the length
     is 0. What a call writes overlaps nothing else that the call is given.
   - The thread has 2 MiB of stack; xdpvm_verify needs at most 256 KiB.
   - malloc, realloc and free are from one allocator. No call comes from a signal handler, or from the forked child of a
     process with threads.
   - A struct xdpvm_session is all zero bytes at first, and from then on only calls change it. A copy of it is not one more
     session: of the two only one may be used. It is in one call at a time. Another thread may make the next call, if it is
     ordered after this one, by a lock or by the start or the join of a thread.

   Nothing else is kept between calls, so any number of threads may call at once, each with its own memory and sessions.
   All memory that a call takes is freed before it returns, except what a session holds until xdpvm_close. No call prints,
   opens a file, reads a clock, or ends the process.

   A text or an image is written into a buffer of yours as far as there is room, and its whole size is returned: if that is
   more than your buffer has, call again with a larger one; but not xdpvm_stream, which would run again. No text ends in a
   zero byte.

   checks/header.py compares this file with the sources of the library. */
#ifndef XDPVM_H
#define XDPVM_H

#include <stddef.h>
#include <stdint.h>

#ifdef __cplusplus
extern "C" {
#endif

#define XDPVM_VERSION "0.1.0"

/* The statuses that calls return. */
#define XDPVM_OK 0      /* done */
#define XDPVM_WRONG 1   /* an argument is outside its limits: nothing was done */
#define XDPVM_REFUSED 2 /* the text, the image, the program or the table is refused */
#define XDPVM_MEMORY 5  /* out of memory: nothing was written */
#define XDPVM_ABSENT 7  /* a map has no such key */
#define XDPVM_UNDECIDED 6 /* neither accepted nor refused: the limit of xdpvm_verify came first. Nothing was written */

/* An image never has more bytes: 8, 12 for each of 16 maps, 8 for each of 4,096 slots. */
#define XDPVM_MAX_IMAGE 32968

/* The most map rows of an image. */
#define XDPVM_MAX_MAPS 16

/* The most bytes of a packet. */
#define XDPVM_MAX_PACKET 9216

/* The most steps that a run may be given, and the greatest bound. */
#define XDPVM_MAX_STEPS 1000000

/* The most instructions that xdpvm_verify explores: with this limit it never answers XDPVM_UNDECIDED. */
#define XDPVM_MAX_EXPLORED 1000000

/* The size of an image, or of the text of a refusal with its line and its column, from 1; for an image both are 0. */
struct xdpvm_assembled {
    size_t size;
    size_t line;
    size_t column;
};

/* Accepted: the most steps of a run, and the rest is 0. Refused: the slot, 0 for what is no image; the size of the text that
   says why; and the code as a number: 9 for V9; for G3, of the control flow, 103; for I5, of what is no image, 205. The bound
   is 0 then. docs/REFUSALS.md has all codes. */
struct xdpvm_verdict {
    size_t said;
    size_t slot;
    uint32_t bound;
    uint32_t code;
};

/* How many bytes a text has. */
struct xdpvm_text_size {
    size_t size;
};

/* The types of maps; the numbers are those of bpf(2). */
#define XDPVM_HASH 1
#define XDPVM_ARRAY 2

/* A map row: the type, the sizes in bytes of a key and of a value, and the most keys. */
struct xdpvm_map_row {
    uint32_t kind;
    uint32_t key_size;
    uint32_t value_size;
    uint32_t entries;
};

/* How many slots and map rows an image has, and its version: 1 or 2. */
struct xdpvm_described {
    size_t slots;
    size_t maps;
    uint32_t version;
};

/* The line and the column, from 1, at which a text of maps is refused, and the code as a number: 3 for M3. All are 0 where no
   line is refused. */
struct xdpvm_map_refusal {
    size_t line;
    size_t column;
    uint32_t code;
};

/* What comes with a packet: a time in nanoseconds, which the helper bpf_ktime_get_ns answers, and the interface and the
   receive queue that it came in by. */
struct xdpvm_head {
    uint64_t time;
    uint32_t interface;
    uint32_t queue;
};

/* How a run ended: r0 at the last exit, and how many steps it took. */
struct xdpvm_ended {
    uint64_t r0;
    uint32_t steps;
};

/* How a traced run ended. */
#define XDPVM_EXIT 0  /* r0 has the answer */
#define XDPVM_TRAP 1  /* `reason` says why, from 1 on in the order of docs/REFUSALS.md: code, unset, readonly, pointer, range,
                         access, compare, helper, frames, exit, action */
#define XDPVM_LIMIT 2 /* it was stopped at the limit */

struct xdpvm_traced_end {
    uint64_t r0;
    uint32_t steps;
    uint32_t kind;
    uint32_t reason;
};

/* The sizes of a report and of the frames out, how many frames there were, and the fault that ended the stream: 1 for F1,
   and the offset of the record; both are 0 where the stream came to its end. */
struct xdpvm_streamed {
    size_t report;
    size_t sent;
    uint64_t offset;
    uint32_t frames;
    uint32_t fault;
};

/* The bound that a proof table shows, and the rest is 0. Refused: the rule that is broken, 6 for P6, and for P5, P7 and P8
   the entry; rule 0 is an image or a control flow that is refused; and the size of the text that says why; the bound is 0. */
struct xdpvm_rechecked {
    size_t said;
    size_t entry;
    uint32_t bound;
    uint32_t rule;
};

/* A program that stays open, with its maps; or nothing, where it is closed. */
struct xdpvm_session {
    void *at;
};

/* The answer to an update or a delete of a key: 0, or a negative error in 64 bits, as from a program's helper, and then
   nothing has changed. */
struct xdpvm_changed {
    uint64_t answer;
};

/* Writes the library's version, and returns its size. */
size_t xdpvm_version(uint8_t *buffer, size_t buffer_len);

/* Assembles a program text (docs/TEXT.md). The image is written to `image`. XDPVM_REFUSED: the text that says why is
   written to `why`. `out` has the size of what was written, and for a refusal the line and the column. */
uint32_t xdpvm_assemble(const uint8_t *text, size_t text_len, uint8_t *image, size_t image_len, uint8_t *why, size_t why_len,
                        struct xdpvm_assembled *out);

/* Says what an image has: `rows` gets its map rows, as far as there is room for `rows_len` of them, and `out` how many they
   are, the slots and the version. The program is not verified. XDPVM_REFUSED: the bytes are no image; xdpvm_verify says why. */
uint32_t xdpvm_describe(const uint8_t *image, size_t image_len, struct xdpvm_map_row *rows, size_t rows_len,
                        struct xdpvm_described *out);

/* Writes the canonical text of an image's program, as `xdpvm dis` does; xdpvm_assemble makes the same image of it. The program
   is not verified. XDPVM_REFUSED: the bytes are no image; xdpvm_verify says why. */
uint32_t xdpvm_disassemble(const uint8_t *image, size_t image_len, uint8_t *text, size_t text_len, struct xdpvm_text_size *out);

/* Verifies the program of an image. XDPVM_OK: no run of it traps, and each exits within out->bound steps, on every packet
   of at most 9,216 bytes. XDPVM_REFUSED: `why` gets what `xdpvm verify` prints: the code and the place, a sentence, the
   instruction, and what is known there; but not which other file bytes that are no image look like. What is known is looked
   for only where why_len is not 0. No more than `limit` instructions are explored: where that is not enough, the answer is
   XDPVM_UNDECIDED, and a larger limit may say more. XDPVM_WRONG: the limit is not from 1 to 1,000,000. */
uint32_t xdpvm_verify(const uint8_t *image, size_t image_len, uint32_t limit, uint8_t *why, size_t why_len,
                      struct xdpvm_verdict *out);

/* Verifies an image, and runs its program on a packet, in place, with starting maps. XDPVM_WRONG: the packet has
   more than 9,216 bytes. XDPVM_REFUSED: xdpvm_verify says why. */
uint32_t xdpvm_run_once(const uint8_t *image, size_t image_len, const struct xdpvm_head *head, uint8_t *packet, size_t packet_len,
                        struct xdpvm_ended *out);

/* Runs the program of an image on a packet, in place, with starting maps and every access tested, verified or not,
   for at most `limit` steps. After a trap or the limit the packet is as the last step left it. XDPVM_WRONG: the packet
   has more than 9,216 bytes, or the limit is not from 1 to 1,000,000. XDPVM_REFUSED: the bytes are no image. */
uint32_t xdpvm_trace_once(const uint8_t *image, size_t image_len, const struct xdpvm_head *head, uint8_t *packet, size_t packet_len,
                          uint32_t limit, struct xdpvm_traced_end *out);

/* Verifies an image, and runs its program on the frames of a stream (docs/FORMATS.md), with starting maps, which keep their
   contents from frame to frame. `report` gets what `xdpvm run` prints, and `sent` the frames out. A fault of the stream ends the run; the
   report and `out` have it, and the status is XDPVM_OK. */
uint32_t xdpvm_run_stream(const uint8_t *image, size_t image_len, const uint8_t *stream, size_t stream_len, uint8_t *report,
                          size_t report_len, uint8_t *sent, size_t sent_len, struct xdpvm_streamed *out);

/* Tests a proof table of an image's program, with no trust in its maker. XDPVM_OK: the promise of xdpvm_verify, with the
   bound of the table. XDPVM_REFUSED: `why` gets what `xdpvm recheck` prints: the code and the entry, a sentence, the slot
   with its instruction, and what is known there, which is looked for only where why_len is not 0. */
uint32_t xdpvm_recheck(const uint8_t *image, size_t image_len, const uint8_t *table, size_t table_len, uint8_t *why,
                       size_t why_len, struct xdpvm_rechecked *out);

/* Verifies an image, and opens a closed session on its program, with starting maps. XDPVM_WRONG: the session is open.
   XDPVM_REFUSED: xdpvm_verify says why. At each status but XDPVM_OK the session stays as it was. */
uint32_t xdpvm_open(const uint8_t *image, size_t image_len, struct xdpvm_session *session);

/* The same by a proof table in place of a search, with the bound of the table. XDPVM_REFUSED: xdpvm_recheck says why. */
uint32_t xdpvm_open_with_table(const uint8_t *image, size_t image_len, const uint8_t *table, size_t table_len,
                               struct xdpvm_session *session);

/* Runs an open program on a packet, in place. The maps keep their contents for the next run. It takes no memory.
   XDPVM_WRONG: the session is closed, or the packet has more than 9,216 bytes. */
uint32_t xdpvm_run(struct xdpvm_session *session, const struct xdpvm_head *head, uint8_t *packet, size_t packet_len,
                   struct xdpvm_ended *out);

/* Runs an open program on the frames of a stream, from what its maps hold on; they keep their contents for the next run.
   `report` gets what `xdpvm run` prints, with the lines of the maps, and `sent` the frames out. A fault of the stream ends the
   run; the report and `out` have it, and the status is XDPVM_OK.

   The run is done once, and what has no room is lost. For the lines of the frames 48 bytes for each 20 of the stream are
   enough; xdpvm_list writes those of the maps, too. `sent` never has more bytes than the stream, or 4 if that has fewer.

   It takes memory for the whole report and all frames out. XDPVM_MEMORY: nothing is written; the frames that were run before
   memory ran out have changed the maps. XDPVM_WRONG: the session is closed. */
uint32_t xdpvm_stream(struct xdpvm_session *session, const uint8_t *stream, size_t stream_len, uint8_t *report, size_t report_len,
                      uint8_t *sent, size_t sent_len, struct xdpvm_streamed *out);

/* Closes a session, and frees its memory. A closed one stays closed. */
void xdpvm_close(struct xdpvm_session *session);

/* Maps of an open program between runs, by their number from 0. None of these four calls takes memory. XDPVM_WRONG: the session
   is closed, there is no such map, or the key or the value has another size than the map's row says.

   The value of a key; XDPVM_ABSENT where it has none. */
uint32_t xdpvm_lookup(struct xdpvm_session *session, size_t map, const uint8_t *key, size_t key_len, uint8_t *value, size_t value_len);

/* Writes the value of a key, or adds the key, by the flags of bpf_map_update_elem: 0 any, 1 only a new key, 2 only one that is
   there. */
uint32_t xdpvm_update(struct xdpvm_session *session, size_t map, const uint8_t *key, size_t key_len, const uint8_t *value,
                      size_t value_len, uint64_t flags, struct xdpvm_changed *out);

/* Removes a key. */
uint32_t xdpvm_delete(struct xdpvm_session *session, size_t map, const uint8_t *key, size_t key_len, struct xdpvm_changed *out);

/* The key at a rank, from 0, with its value: of an array by its index, of a hash map by the bytes of the keys. XDPVM_ABSENT
   where the map has fewer keys. The first call after a map has changed, or of another map, takes time for all keys; the next
   ones do not. */
uint32_t xdpvm_next(struct xdpvm_session *session, size_t map, size_t rank, uint8_t *key, size_t key_len, uint8_t *value,
                    size_t value_len);

/* Fills the maps of an open program by the lines of a text (docs/FORMATS.md, "Text of maps"): `map`, the map's number, a key
   and a value, each an update with flag 0, in order. A report is such a text. It takes no memory. XDPVM_REFUSED: `out` says
   why and where, M1 to M6; what the lines before that one did stays. XDPVM_WRONG: the session is closed. */
uint32_t xdpvm_fill(struct xdpvm_session *session, const uint8_t *text, size_t text_len, struct xdpvm_map_refusal *out);

/* Writes what the maps of an open program hold, as a report has it: a line for each key, which xdpvm_fill reads. It takes
   memory for all lines. XDPVM_WRONG: the session is closed. */
uint32_t xdpvm_list(struct xdpvm_session *session, uint8_t *buffer, size_t buffer_len, struct xdpvm_text_size *out);

/* The action that r0 names at the last exit, by its low 32 bits: 0 aborted, 1 drop, 2 pass, 3 tx, 4 redirect; 5 for every
   other number. */
uint32_t xdpvm_action(uint64_t r0);

#ifdef __cplusplus
}
#endif

#endif
