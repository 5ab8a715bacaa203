/* The library used wrongly, in each way that xdpvm.h names or forbids. Each case is a process of its own, and a line says what
   happened: a status, what was lost, or a signal. The library's memory comes from pages of their own here, with one behind each
   that nothing may touch, and none is used again, so what reads or writes outside of it ends by a signal. The caller's other
   memory is compared after each case that returns.

   usage: misuse        (attacks/embedding.py builds and runs it) */
#define _GNU_SOURCE
#include "counting.h"
#include <pthread.h>
#include <signal.h>
#include <stdatomic.h>
#include <sys/mman.h>
#include <sys/wait.h>
#include <unistd.h>

enum { PAGE = 4096, SECONDS = 10, RUNS = 2000, AT_ONCE = 200000, TURNS = 300, CHILDREN = 20, INTERRUPTS = 500 };

/* ---- the library's memory */

struct block {
    uint64_t given;
    void *at;
};

struct page {
    struct page *next;
    uint8_t *begin, *at;
    size_t pages;
    int is_live;
};

static struct page *all;
static atomic_flag busy = ATOMIC_FLAG_INIT;
static atomic_long live, freed_twice;

static size_t pages_of(size_t size, size_t align) {
    return ((size ? size : 1) + align - 1) / align * align;
}

/* A block that ends where a page ends that nothing may touch. */
struct block rattle_alloc(size_t size, size_t align) {
    size_t room = pages_of(size, align), pages = (room + PAGE - 1) / PAGE;
    uint8_t *begin = mmap(NULL, (pages + 1) * PAGE, PROT_READ | PROT_WRITE, MAP_PRIVATE | MAP_ANONYMOUS, -1, 0);
    struct page *page = malloc(sizeof *page);
    if (begin == MAP_FAILED || !page) return (struct block){0, (void *)1};
    mprotect(begin + pages * PAGE, PAGE, PROT_NONE);
    *page = (struct page){NULL, begin, begin + pages * PAGE - room, pages, 1};
    while (atomic_flag_test_and_set(&busy)) {
    }
    page->next = all, all = page;
    atomic_flag_clear(&busy);
    live++;
    return (struct block){1, page->at};
}

/* From here on nothing may touch the block. */
void rattle_dealloc(void *at) {
    while (atomic_flag_test_and_set(&busy)) {
    }
    struct page *page = all;
    while (page && page->at != at) page = page->next;
    int was_live = page && page->is_live;
    if (was_live) page->is_live = 0;
    atomic_flag_clear(&busy);
    if (!was_live) {
        freed_twice++;
        return;
    }
    mprotect(page->begin, page->pages * PAGE, PROT_NONE);
    live--;
}

struct block rattle_realloc(void *old, size_t old_size, size_t size, size_t align) {
    struct block block = rattle_alloc(size, align);
    if (!block.given) return block;
    memcpy(block.at, old, old_size < size ? old_size : size);
    rattle_dealloc(old);
    return block;
}

/* ---- the caller's memory */

struct memory {
    uint8_t before[64];
    struct xdpvm_session session;
    uint8_t between[64];
    struct xdpvm_session copy;
    uint8_t behind[64], key[4], after_key[60], value[8], after_value[56], packet[64], after_packet[64], text[256], last[64];
};

static struct memory mine;
static const struct xdpvm_head head = {7, 2, 0};
static struct xdpvm_ended ended;
static struct xdpvm_changed changed;
static struct xdpvm_streamed streamed;
static struct xdpvm_map_refusal refusal;
static struct xdpvm_text_size listed;

/* Bytes that no call is given. */
static int has_touched(void) {
    const uint8_t *parts[] = {mine.before, mine.between, mine.behind, mine.after_key, mine.after_value, mine.after_packet, mine.last};
    const size_t sizes[] = {64, 64, 64, 60, 56, 64, 64};
    int touched = 0;
    for (int i = 0; i < 7; i++) {
        for (size_t k = 0; k < sizes[i]; k++) touched |= parts[i][k] != 0xA5;
    }
    return touched;
}

static void need(int holds, const char *what) {
    if (!holds) {
        printf("WRONG: %s", what);
        fflush(stdout);
        _exit(1);
    }
}

static void open_mine(void) {
    need(xdpvm_open(image, image_size, &mine.session) == XDPVM_OK, "the session is not opened");
}

static uint32_t run(struct xdpvm_session *session) {
    return xdpvm_run(session, &head, mine.packet, sizeof mine.packet, &ended);
}

static uint64_t count_of(struct xdpvm_session *session, uint32_t interface) {
    uint64_t packets = 0;
    return xdpvm_lookup(session, 0, (uint8_t *)&interface, 4, (uint8_t *)&packets, 8) == XDPVM_OK ? packets : 0;
}

/* Whether each call on this session answers XDPVM_WRONG, and writes nothing. */
static void need_wrong(struct xdpvm_session *session) {
    struct memory before = mine;
    static const uint8_t text[] = "map 0 01000000 0000000000000000\n";
    uint32_t answers[] = {
        run(session),
        xdpvm_lookup(session, 0, mine.key, 4, mine.value, 8),
        xdpvm_update(session, 0, mine.key, 4, mine.value, 8, 0, &changed),
        xdpvm_delete(session, 0, mine.key, 4, &changed),
        xdpvm_next(session, 0, 0, mine.key, 4, mine.value, 8),
        xdpvm_fill(session, text, sizeof text - 1, &refusal),
        xdpvm_list(session, mine.text, sizeof mine.text, &listed),
        xdpvm_stream(session, (const uint8_t *)"XPF1", 4, mine.text, 128, mine.text + 128, 128, &streamed),
    };
    for (size_t i = 0; i < sizeof answers / sizeof *answers; i++) need(answers[i] == XDPVM_WRONG, "a call on a closed session");
    need(!memcmp(&before, &mine, sizeof mine), "a call on a closed session wrote something");
}

/* ---- what the header says an answer to */

static void closed(void) {
    need_wrong(&mine.session);
    xdpvm_close(&mine.session);
    need_wrong(&mine.session);
    printf("XDPVM_WRONG, nothing written");
}

static void closed_twice(void) {
    open_mine();
    xdpvm_close(&mine.session);
    xdpvm_close(&mine.session);
    need_wrong(&mine.session);
    need(live == 0 && freed_twice == 0, "memory");
    printf("it stays closed");
}

static void opened_twice(void) {
    open_mine();
    need(run(&mine.session) == XDPVM_OK, "a run");
    need(xdpvm_open(image, image_size, &mine.session) == XDPVM_WRONG, "a second opening");
    need(xdpvm_open_with_table(image, image_size, mine.text, 0, &mine.session) == XDPVM_WRONG, "a second opening by a table");
    need(count_of(&mine.session, 2) == 1, "the session after it");
    xdpvm_close(&mine.session);
    need(live == 0, "memory is lost");
    printf("XDPVM_WRONG, the session goes on");
}

static void other_sizes(void) {
    open_mine();
    struct memory before = mine;
    for (size_t map = 0; map < 3; map++) {
        for (size_t key = 0; key <= 5; key++) {
            for (size_t value = 7; value <= 9; value++) {
                if (map == 0 && key == 4 && value == 8) continue;
                need(xdpvm_update(&mine.session, map, mine.key, key, mine.value, value, 0, &changed) == XDPVM_WRONG, "an update");
                need(xdpvm_lookup(&mine.session, map, mine.key, key, mine.value, value) == XDPVM_WRONG, "a look-up");
                need(xdpvm_next(&mine.session, map, 0, mine.key, key, mine.value, value) == XDPVM_WRONG, "a key by its rank");
            }
            need((map == 0 && key == 4) || xdpvm_delete(&mine.session, map, mine.key, key, &changed) == XDPVM_WRONG, "a delete");
        }
    }
    need(xdpvm_run(&mine.session, &head, image, XDPVM_MAX_PACKET + 1, &ended) == XDPVM_WRONG, "a long packet");
    need(!memcmp(&before, &mine, sizeof mine), "something was written");
    printf("XDPVM_WRONG, nothing written");
}

/* ---- what it forbids */

static void not_zero(void) {
    memset(&mine.session, 0xA5, sizeof mine.session);
    need(xdpvm_open(image, image_size, &mine.session) == XDPVM_WRONG, "an opening of one that is not zero");
    printf("open: XDPVM_WRONG; run: ");
    fflush(stdout);
    printf("status %u", run(&mine.session));
}

static void zeroed(void) {
    open_mine();
    memset(&mine.session, 0, sizeof mine.session);
    need_wrong(&mine.session);
    need(xdpvm_open(image, image_size, &mine.session) == XDPVM_OK, "an opening of one that was set to zero");
    xdpvm_close(&mine.session);
    printf("it is closed, and %s", live ? "its memory is lost" : "its memory is freed");
}

static void never_closed(void) {
    open_mine();
    printf("%s", live ? "its memory is lost" : "nothing is lost");
}

static void moved(void) {
    open_mine();
    mine.copy = mine.session;
    for (int i = 0; i < RUNS; i++) need(run(&mine.copy) == XDPVM_OK, "a run of the copy");
    need(count_of(&mine.copy, 2) == RUNS, "the count of the copy");
    xdpvm_close(&mine.copy);
    need(live == 0, "memory is lost");
    printf("the copy is the session");
}

static void both_used(void) {
    open_mine();
    mine.copy = mine.session;
    for (int i = 0; i < RUNS; i++) need(run(i % 2 ? &mine.copy : &mine.session) == XDPVM_OK, "a run of either");
    printf("both are one session: %llu of %d packets counted", (unsigned long long)count_of(&mine.session, 2), RUNS);
}

static void copy_after_close(void) {
    open_mine();
    mine.copy = mine.session;
    xdpvm_close(&mine.session);
    printf("status %u", run(&mine.copy));
}

static void copy_closed(void) {
    open_mine();
    mine.copy = mine.session;
    xdpvm_close(&mine.session);
    xdpvm_close(&mine.copy);
    printf("%ld blocks freed twice", (long)freed_twice);
}

static void changed_pointer(void) {
    open_mine();
    mine.session.at = (uint8_t *)mine.session.at + 8;
    printf("status %u", run(&mine.session));
}

static void of_the_caller(void) {
    mine.session.at = image;
    printf("status %u", run(&mine.session));
}

static atomic_ulong ran_at_once;

/* What calls at once did: how many had XDPVM_WRONG, and whether the others are all in the maps. */
static void tell_at_once(unsigned long all, unsigned long right, uint64_t counted) {
    printf("%s of the calls are XDPVM_WRONG; of the others %s", right == all ? "none" : right * 2 > all ? "some" : "most",
           counted == right ? "each packet is counted" : "packets are lost, or counted twice");
}

static void *runs(void *given) {
    static atomic_uint interfaces;
    unsigned long right = 0;
    uint32_t interface = interfaces++;
    struct xdpvm_ended mine_ended;
    uint8_t packet[64] = {0};
    for (uint32_t i = 0; i < AT_ONCE; i++) {
        struct xdpvm_head its = {0, interface * 50 + i % 50, 0};
        right += xdpvm_run(given, &its, packet, sizeof packet, &mine_ended) == XDPVM_OK;
    }
    ran_at_once += right;
    return NULL;
}

static void two_threads(void) {
    pthread_t ids[4];
    uint64_t counted = 0;
    open_mine();
    for (int i = 0; i < 4; i++) need(!pthread_create(&ids[i], NULL, runs, &mine.session), "a thread");
    for (int i = 0; i < 4; i++) pthread_join(ids[i], NULL);
    for (uint32_t i = 0; i < 200; i++) counted += count_of(&mine.session, i);
    tell_at_once(4 * AT_ONCE, ran_at_once, counted);
    xdpvm_close(&mine.session);
}

static atomic_int stops;
static uint8_t flips[XDPVM_MAX_IMAGE];
static size_t first, last;

/* Puts each of two programs into the image by turns: one that is accepted, and one that loads from a number. */
static void *flip(void *given) {
    (void)given;
    while (!stops) {
        for (size_t i = first; i < last; i++) image[i] ^= flips[i];
    }
    return NULL;
}

static void image_changes(void) {
    pthread_t id;
    int accepted = 0, refused = 0;
    struct xdpvm_assembled made;
    static const char good[] = "r2 = *(u32 *)(r1 + 0)\nr0 = 2\nr0 = 2\nexit\n", bad[] = "r2 = *(u32 *)(r1 + 12)\nr0 = *(u64 *)(r2 + 0)\nr0 = 2\nexit\n";
    need(!xdpvm_assemble((const uint8_t *)bad, sizeof bad - 1, flips, sizeof flips, mine.text, 256, &made), "a program");
    need(!xdpvm_assemble((const uint8_t *)good, sizeof good - 1, image, sizeof image, mine.text, 256, &made), "a program");
    for (last = made.size, first = 0; flips[first] == image[first]; first++) flips[first] = 0;
    for (size_t i = first; i < last; i++) flips[i] ^= image[i];
    need(!pthread_create(&id, NULL, flip, NULL), "a thread");
    for (int i = 0; i < TURNS; i++) {
        uint32_t status = xdpvm_open(image, made.size, &mine.session);
        accepted += status == XDPVM_OK, refused += status == XDPVM_REFUSED;
        need(status != XDPVM_OK || run(&mine.session) == XDPVM_OK, "a run");
        xdpvm_close(&mine.session);
    }
    stops = 1;
    pthread_join(id, NULL);
    printf("each of %d programs is accepted or refused, and runs", accepted + refused);
}

static volatile unsigned long interrupted, answered;

static void interrupts(int number) {
    (void)number;
    struct xdpvm_ended its;
    uint8_t packet[64] = {0};
    answered += xdpvm_run(&mine.session, &(struct xdpvm_head){0, 3, 0}, packet, sizeof packet, &its) == XDPVM_OK;
    interrupted++;
}

/* Sends signals to a thread. */
static void *sends(void *given) {
    while (!stops) {
        pthread_kill(*(pthread_t *)given, SIGUSR1);
        usleep(20);
    }
    return NULL;
}

static void of_a_handler(void) {
    pthread_t id, self = pthread_self();
    unsigned long ran = 0, all = 0;
    open_mine();
    signal(SIGUSR1, interrupts);
    need(!pthread_create(&id, NULL, sends, &self), "a thread");
    for (; interrupted < INTERRUPTS; all++) ran += run(&mine.session) == XDPVM_OK;
    stops = 1;
    pthread_join(id, NULL);
    tell_at_once(interrupted, answered, count_of(&mine.session, 3));
    need(ran == all, "a run that was interrupted");
}

static void null_of_no_length(void) {
    struct xdpvm_verdict verdict;
    printf("verify: status %u", xdpvm_verify(NULL, 0, 100, NULL, 0, &verdict));
    open_mine();
    printf("; run without a packet: status %u", xdpvm_run(&mine.session, &head, NULL, 0, &ended));
    printf("; list: status %u", xdpvm_list(&mine.session, NULL, 0, &listed));
}

static void null_image(void) {
    struct xdpvm_verdict verdict;
    printf("status %u", xdpvm_verify(NULL, 24, 100, mine.text, sizeof mine.text, &verdict));
}

static void null_session(void) {
    printf("status %u", run(NULL));
}

static void overlapping(void) {
    static uint8_t stream[4 + 84];
    memcpy(stream, "XPF1", 4);
    stream[4 + 16] = 64;
    open_mine();
    need(xdpvm_stream(&mine.session, stream, sizeof stream, mine.text, 256, mine.text, 256, &streamed) == XDPVM_OK, "a stream");
    need(xdpvm_lookup(&mine.session, 0, mine.text, 4, mine.text, 8) <= XDPVM_ABSENT, "a look-up");
    need(xdpvm_run(&mine.session, &head, mine.text, 64, (struct xdpvm_ended *)(void *)mine.text) == XDPVM_OK, "a run");
    xdpvm_close(&mine.session);
    printf("what is written later stands there, and nothing else is written");
}

static void longer_than_it_is(void) {
    uint8_t *page = mmap(NULL, 2 * PAGE, PROT_READ | PROT_WRITE, MAP_PRIVATE | MAP_ANONYMOUS, -1, 0);
    struct xdpvm_assembled made;
    mprotect(page + PAGE, PAGE, PROT_NONE);
    memset(page, ' ', PAGE);
    printf("status %u", xdpvm_assemble(page, PAGE + 1, image, sizeof image, mine.text, sizeof mine.text, &made));
}

static void *verifies(void *given) {
    struct xdpvm_verdict verdict;
    while (!stops) xdpvm_verify(image, image_size, 100, given, 0, &verdict);
    return NULL;
}

static void forked(void) {
    pthread_t id;
    int ends = 0, status = 0;
    need(!pthread_create(&id, NULL, verifies, mine.text), "a thread");
    for (; ends < CHILDREN && status == 0; ends++) {
        pid_t child = fork();
        if (!child) {
            alarm(1);
            open_mine();
            _exit(run(&mine.session) != XDPVM_OK);
        }
        waitpid(child, &status, 0);
    }
    stops = 1;
    pthread_join(id, NULL);
    printf("%s", status ? "a child hangs, since another thread held the allocator" : "each child goes on");
}

/* ---- the cases */

struct use {
    const char *name;
    void (*act)(void);
    int is_answered; /* the header says what happens */
};

static const struct use USES[] = {
    {"a closed session is used", closed, 1},
    {"a session is closed twice", closed_twice, 1},
    {"an open session is opened", opened_twice, 1},
    {"a map, a key, a value or a packet of another size", other_sizes, 1},
    {"a session that is copied, and only the copy is used", moved, 1},
    {"a session that is not all zero at first", not_zero, 0},
    {"an open session is set to zero", zeroed, 0},
    {"a session is never closed", never_closed, 0},
    {"a session and its copy are used by turns", both_used, 0},
    {"a copy is used after the session was closed", copy_after_close, 0},
    {"a copy is closed after the session was", copy_closed, 0},
    {"the pointer of a session is changed", changed_pointer, 0},
    {"the pointer leads to memory of the caller's", of_the_caller, 0},
    {"four threads use one session at once", two_threads, 0},
    {"another thread changes the image during a call", image_changes, 0},
    {"a signal handler uses the session", of_a_handler, 0},
    {"a forked child of a process with threads calls", forked, 0},
    {"NULL with length 0", null_of_no_length, 0},
    {"NULL with a length", null_image, 0},
    {"NULL in place of a session", null_session, 0},
    {"outputs that overlap", overlapping, 0},
    {"a length of more than there is", longer_than_it_is, 0},
};

/* Runs a case in a process of its own; whether it is as the header says. */
static int tried(const struct use *use) {
    int status;
    printf("%s: ", use->name);
    fflush(stdout);
    pid_t child = fork();
    if (!child) {
        memset(&mine, 0xA5, sizeof mine);
        mine.session.at = mine.copy.at = NULL;
        memset(mine.key, 0, sizeof mine.key);
        alarm(SECONDS);
        use->act();
        fflush(stdout);
        _exit(has_touched() ? 3 : 0);
    }
    waitpid(child, &status, 0);
    if (WIFSIGNALED(status)) {
        printf(WTERMSIG(status) == SIGALRM ? "it does not end" : "it ends by signal %d", WTERMSIG(status));
    } else if (WEXITSTATUS(status) == 3) {
        printf("; MEMORY OUTSIDE WAS TOUCHED");
    }
    printf("\n");
    return WIFEXITED(status) ? WEXITSTATUS(status) == 0 : !use->is_answered;
}

int main(void) {
    int wrong = 0;
    make_image();
    for (size_t i = 0; i < sizeof USES / sizeof *USES; i++) wrong += !tried(&USES[i]);
    printf("%zu uses, %d not as they have to be\n", sizeof USES / sizeof *USES, wrong);
    return wrong != 0;
}
