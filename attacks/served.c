/* Makes a program do one command line after the other in one process, for attacks that would otherwise start a process for each
   (attacks/served.py, by LD_PRELOAD). Its main is called again with other words; what it keeps between two calls is the heap, so a
   byte that is read before it is written is one of an earlier call.

   A request on the first standard input is a size, a folder to work in, and the words, each with a zero byte behind it. The answer on
   the first standard output is the status, two sizes, and what the call wrote to standard output and to standard error. Numbers have
   32 bits. */
#define _GNU_SOURCE
#include <dlfcn.h>
#include <fcntl.h>
#include <link.h>
#include <stdint.h>
#include <string.h>
#include <sys/mman.h>
#include <unistd.h>

typedef int called(int count, char **words, char **env);
typedef int starting(called *, int, char **, void (*)(void), void (*)(void), void (*)(void), void *);

enum { MOST_WORDS = 64, MOST_BYTES = 1 << 16, MOST_BEGINNINGS = 16 };

static called *program, *beginnings[MOST_BEGINNINGS];
static size_t count_of_beginnings;
static int requests, answers;
static char words_of[MOST_BYTES];

/* All that was asked for; nothing is left to do where it does not come. */
static void take(void *to, size_t size) {
    for (char *at = to; size;) {
        ssize_t some = read(requests, at, size);
        if (some <= 0) _exit(some != 0);
        at += some, size -= (size_t)some;
    }
}

static void give(const void *from, size_t size) {
    for (const char *at = from; size;) {
        ssize_t some = write(answers, at, size);
        if (some <= 0) _exit(1);
        at += some, size -= (size_t)some;
    }
}

/* What the program's own beginning calls before main, which gets the words, too. */
static int find_beginnings(struct dl_phdr_info *info, size_t size, void *none) {
    (void)size, (void)none;
    ElfW(Addr) first = 0, bytes = 0;
    for (int i = 0; i < info->dlpi_phnum; i++) {
        if (info->dlpi_phdr[i].p_type != PT_DYNAMIC) continue;
        for (ElfW(Dyn) *at = (void *)(info->dlpi_addr + info->dlpi_phdr[i].p_vaddr); at->d_tag != DT_NULL; at++) {
            if (at->d_tag == DT_INIT_ARRAY) first = info->dlpi_addr + at->d_un.d_ptr;
            if (at->d_tag == DT_INIT_ARRAYSZ) bytes = at->d_un.d_val;
        }
    }
    for (called **at = (void *)first; bytes >= sizeof *at && count_of_beginnings < MOST_BEGINNINGS; bytes -= sizeof *at) {
        beginnings[count_of_beginnings++] = *at++;
    }
    return 1; /* the first one is the program */
}

/* Standard input has nothing, and the two outputs are files in memory. */
static void begin(void) {
    requests = fcntl(0, F_DUPFD_CLOEXEC, 100), answers = fcntl(1, F_DUPFD_CLOEXEC, 100);
    int none = open("/dev/null", O_RDONLY);
    if (requests < 0 || answers < 0 || none < 0 || dup2(none, 0) != 0) _exit(1);
    close(none);
    for (int to = 1; to <= 2; to++) {
        int made = memfd_create("output", 0);
        if (made < 0 || dup2(made, to) != to) _exit(1);
        close(made);
    }
    dl_iterate_phdr(find_beginnings, 0);
}

static void empty(int output) {
    if (ftruncate(output, 0) || lseek(output, 0, SEEK_SET)) _exit(1);
}

static void answer(int output, uint32_t size) {
    if (!size) return;
    void *at = mmap(0, size, PROT_READ, MAP_SHARED, output, 0);
    if (at == MAP_FAILED) _exit(1);
    give(at, size);
    munmap(at, size);
}

/* The words of the next request; how many they are. */
static int next_words(char **given) {
    uint32_t size, many = 0;
    take(&size, sizeof size);
    if (!size || size > sizeof words_of) _exit(1);
    take(words_of, size);
    if (words_of[size - 1]) _exit(1);
    for (uint32_t at = 0; at < size && many < MOST_WORDS; at += (uint32_t)strlen(words_of + at) + 1) given[many++] = words_of + at;
    given[many] = NULL;
    return (int)many;
}

static int serve(int count, char **words, char **env) {
    static char *given[MOST_WORDS + 1];
    (void)count, (void)words;
    for (begin();;) {
        int many = next_words(given) - 1;
        if (chdir(given[0])) _exit(1);
        empty(1), empty(2);
        for (size_t i = 0; i < count_of_beginnings; i++) beginnings[i](many, given + 1, env);
        uint32_t status = (uint32_t)program(many, given + 1, env);
        uint32_t told[] = {status, (uint32_t)lseek(1, 0, SEEK_END), (uint32_t)lseek(2, 0, SEEK_END)};
        give(told, sizeof told);
        answer(1, told[1]), answer(2, told[2]);
    }
}

int __libc_start_main(called *own, int count, char **words, void (*first)(void), void (*last)(void), void (*loader)(void), void *stack) {
    starting *start;
    *(void **)&start = dlsym(RTLD_NEXT, "__libc_start_main");
    program = own;
    return start(serve, count, words, first, last, loader, stack);
}
