// Shapes of a hash map by chains, to choose one by: what a look-up and an update take with heads, links and keys laid
// out in each way. Sizes are read at run time, as a map's are. Prints nanoseconds of processor time for each call, the
// least of six runs in turn.
#include <stdint.h>
#include <stdio.h>
#include <stdlib.h>
#include <string.h>
#include <time.h>

enum { ENTRIES = 65536, ROUNDS = 40, RUNS = 6 };
#define NONE 0xffffffffu

// a number or none, in 16 bytes
typedef struct { uint64_t some, number; } wide;
// a slot of a slab: whether it has a link, and the link
typedef struct { uint64_t used; uint32_t chain, place; wide next; } slot32;
typedef struct { uint64_t used; uint32_t chain, place; uint64_t key; wide next; } slot48;
typedef struct { uint64_t used; uint32_t chain, place, next, pad; } slot24;
// a link that is named by its place, with its key
typedef struct { uint64_t key; uint32_t chain, next; } link16;

static wide *wide_heads;
static uint32_t *heads, *nexts;
static slot32 *slots32;
static slot48 *slots48;
static slot24 *slots24;
static link16 *links16;
static uint8_t *keys, *values;
static volatile uint32_t the_key_size = 4, the_value_size = 8, the_chains = ENTRIES;

static inline uint32_t chain_of(const uint8_t *key, uint32_t size) {
    uint64_t hash = 0;
    for (uint32_t i = 0; i < size; i++)
        hash = (hash + key[i]) * 0xd6e8feb86659fd93u;
    return (uint32_t)(hash >> 32) % the_chains;
}

static inline int same(const uint8_t *a, const uint8_t *b, uint32_t size) {
    if (size == 4) {
        uint32_t x, y;
        memcpy(&x, a, 4), memcpy(&y, b, 4);
        return x == y;
    }
    return !memcmp(a, b, size);
}

static inline uint64_t word_of(const uint8_t *key, uint32_t size) {
    uint32_t word = 0;
    memcpy(&word, key, size < 4 ? size : 4);
    return word;
}

#define LOOK_UP(NAME, HEAD, END, PLACE, FOUND, NEXT)                                                                   \
    static __attribute__((noinline)) uint8_t *NAME(const uint8_t *key) {                                               \
        uint32_t size = the_key_size, value_size = the_value_size;                                                     \
        uint64_t word = word_of(key, size);                                                                            \
        (void)word;                                                                                                    \
        HEAD(chain_of(key, size));                                                                                     \
        while (END) {                                                                                                  \
            uint64_t place = PLACE;                                                                                    \
            if (FOUND)                                                                                                 \
                return values + place * value_size;                                                                    \
            NEXT;                                                                                                      \
        }                                                                                                              \
        return NULL;                                                                                                   \
    }
#define WIDE(chain) wide n = wide_heads[chain]
#define NARROW(chain) uint32_t n = heads[chain]
#define BYTES !memcmp(keys + place * size, key, size)
#define WORDS same(keys + place * size, key, size)

LOOK_UP(bytes_32, WIDE, n.some, slots32[n.number].place, BYTES, n = slots32[n.number].next)
LOOK_UP(words_32, WIDE, n.some, slots32[n.number].place, WORDS, n = slots32[n.number].next)
LOOK_UP(beside_48, WIDE, n.some, slots48[n.number].place, slots48[n.number].key == word, n = slots48[n.number].next)
LOOK_UP(narrow_24, NARROW, n != NONE, slots24[n].place, WORDS, n = slots24[n].next)
LOOK_UP(beside_16, NARROW, n != NONE, n, links16[n].key == word, n = links16[n].next)
LOOK_UP(places_bytes, NARROW, n != NONE, n, BYTES, n = nexts[n])
LOOK_UP(places_words, NARROW, n != NONE, n, WORDS, n = nexts[n])

typedef uint8_t *look_up(const uint8_t *);
static struct { const char *name; look_up *find; double best[3]; } shapes[] = {
    {"wide heads, slots of 32 bytes, memcmp", bytes_32, {1e9, 1e9, 1e9}},
    {"the same, keys as words", words_32, {1e9, 1e9, 1e9}},
    {"wide heads, slots of 48 bytes with the key", beside_48, {1e9, 1e9, 1e9}},
    {"narrow heads, slots of 24 bytes, words", narrow_24, {1e9, 1e9, 1e9}},
    {"narrow heads, links by place with the key", beside_16, {1e9, 1e9, 1e9}},
    {"narrow heads, next places alone, memcmp", places_bytes, {1e9, 1e9, 1e9}},
    {"the same, keys as words", places_words, {1e9, 1e9, 1e9}},
};
enum { SHAPES = sizeof shapes / sizeof *shapes };

static uint64_t now(void) {
    struct timespec t;
    clock_gettime(CLOCK_PROCESS_CPUTIME_ID, &t);
    return t.tv_sec * 1000000000ull + t.tv_nsec;
}

static uint64_t sum;

// looks up present keys, absent ones, or writes the values of present ones
static double took(look_up *find, int what) {
    uint64_t start = now();
    for (uint32_t r = 0; r < ROUNDS; r++)
        for (uint32_t i = 0; i < ENTRIES; i++) {
            uint32_t key = i * 40503u % ENTRIES + (what == 1 ? ENTRIES : 0);
            uint64_t value = r + i;
            uint8_t *at = find((uint8_t *)&key);
            if (what == 2 && at)
                memcpy(at, &value, the_value_size);
            else
                sum += at ? *at : 1;
        }
    return (double)(now() - start) / ENTRIES / ROUNDS;
}

int main(void) {
    wide_heads = calloc(ENTRIES, sizeof *wide_heads), heads = malloc(ENTRIES * 4), nexts = malloc(ENTRIES * 4);
    slots32 = calloc(ENTRIES, sizeof *slots32), slots48 = calloc(ENTRIES, sizeof *slots48);
    slots24 = calloc(ENTRIES, sizeof *slots24), links16 = calloc(ENTRIES, sizeof *links16);
    keys = malloc(ENTRIES * 4), values = calloc(ENTRIES, 8);
    memset(heads, 255, ENTRIES * 4);
    for (uint32_t i = 0; i < ENTRIES; i++) {
        uint32_t c = chain_of((uint8_t *)&i, 4);
        memcpy(keys + i * 4, &i, 4);
        slots32[i] = (slot32){1, c, i, wide_heads[c]}, slots48[i] = (slot48){1, c, i, i, wide_heads[c]};
        slots24[i] = (slot24){1, c, i, heads[c], 0}, links16[i] = (link16){i, c, heads[c]}, nexts[i] = heads[c];
        wide_heads[c] = (wide){1, i}, heads[c] = i;
    }
    for (int run = 0; run < RUNS; run++)
        for (int s = 0; s < SHAPES; s++)
            for (int what = 0; what < 3; what++) {
                double t = took(shapes[s].find, what);
                if (t < shapes[s].best[what])
                    shapes[s].best[what] = t;
            }
    printf("%-44s%10s%10s%10s\n", "", "present", "absent", "update");
    for (int s = 0; s < SHAPES; s++)
        printf("%-44s%10.1f%10.1f%10.1f\n", shapes[s].name, shapes[s].best[0], shapes[s].best[1], shapes[s].best[2]);
    return sum == 1;
}
