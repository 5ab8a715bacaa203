/* What a key that is added costs where serials are numbers by place, and where they are ranks in the
 * ordered list of the keys' places: five ways, with 4-byte keys in random order, and what it costs
 * to ask for a rank.
 *
 * usage: gcc -O2 -o ranks bench/ranks.c && ./ranks KEYS
 *
 * Each figure is microseconds of processor time for a key, the least of RUNS runs.
 */
#include <stdint.h>
#include <stdio.h>
#include <stdlib.h>
#include <string.h>
#include <time.h>

#define MOST 65536
#define RUNS 5
#define BLOCK 512
#define BLOCKS (2 * MOST / BLOCK + 2)

struct serial {
    uint64_t given, number;
};

static uint8_t keys[MOST][4];
static uint64_t places[MOST];
static uint32_t short_places[MOST];
static struct serial serials[MOST];
static uint64_t hints[MOST];
static uint32_t blocks[BLOCKS][BLOCK], sizes[BLOCKS], ranks[BLOCKS], order[BLOCKS], block_count;
static uint32_t block_of[MOST], place_in_block[MOST];

static int is_before(const uint8_t *a, const uint8_t *b) {
    return memcmp(a, b, 4) < 0;
}

static double micros(void) {
    struct timespec now;
    clock_gettime(CLOCK_PROCESS_CPUTIME_ID, &now);
    return now.tv_sec * 1e6 + now.tv_nsec / 1e3;
}

static size_t rank_of(size_t count, const uint8_t *key) {
    size_t low = 0, high = count;
    while (low < high) {
        size_t middle = (low + high) / 2;
        if (is_before(keys[places[middle]], key)) low = middle + 1;
        else high = middle;
    }
    return low;
}

static size_t short_rank_of(const uint32_t *from, size_t count, const uint8_t *key) {
    size_t low = 0, high = count;
    while (low < high) {
        size_t middle = (low + high) / 2;
        if (is_before(keys[from[middle]], key)) low = middle + 1;
        else high = middle;
    }
    return low;
}

static size_t insert(size_t place) {
    size_t rank = rank_of(place, keys[place]);
    memmove(places + rank + 1, places + rank, (place - rank) * sizeof *places);
    places[rank] = place;
    return rank;
}

static void number(size_t from, size_t count) {
    for (size_t rank = from; rank < count; rank++) {
        serials[places[rank]] = (struct serial){1, rank};
        hints[rank] = places[rank];
    }
}

static void insert_and_number_all(size_t place) {
    insert(place);
    number(0, place + 1);
}

static void insert_and_number_the_rest(size_t place) {
    number(insert(place), place + 1);
}

static void insert_only(size_t place) {
    insert(place);
}

static void insert_short(size_t place) {
    size_t rank = short_rank_of(short_places, place, keys[place]);
    memmove(short_places + rank + 1, short_places + rank, (place - rank) * sizeof *short_places);
    short_places[rank] = place;
}

static void note_places(uint32_t block, uint32_t from) {
    for (uint32_t i = from; i < sizes[block]; i++) {
        block_of[blocks[block][i]] = block;
        place_in_block[blocks[block][i]] = i;
    }
}

/* A block that is full is cut in two. Then the first rank of each block is counted anew. */
static void insert_into_blocks(size_t place) {
    if (place == 0) {
        block_count = 1;
        order[0] = sizes[0] = 0;
    }
    uint32_t low = 0, high = block_count;
    while (low + 1 < high) {
        uint32_t middle = (low + high) / 2;
        if (is_before(keys[place], keys[blocks[order[middle]][0]])) high = middle;
        else low = middle;
    }
    uint32_t block = order[low];
    uint32_t *in = blocks[block];
    size_t rank = short_rank_of(in, sizes[block], keys[place]);
    memmove(in + rank + 1, in + rank, (sizes[block] - rank) * sizeof *in);
    in[rank] = place;
    sizes[block]++;
    note_places(block, rank);
    if (sizes[block] == BLOCK) {
        uint32_t next = block_count++;
        memmove(order + low + 2, order + low + 1, (next - low - 1) * sizeof *order);
        order[low + 1] = next;
        sizes[block] = sizes[next] = BLOCK / 2;
        memcpy(blocks[next], in + BLOCK / 2, BLOCK / 2 * sizeof *in);
        note_places(next, 0);
    }
    uint32_t first = 0;
    for (uint32_t i = 0; i < block_count; i++) {
        ranks[order[i]] = first;
        first += sizes[order[i]];
    }
}

static void measure(const char *way, size_t count, void (*add)(size_t)) {
    double best = 1e9;
    for (int run = 0; run < RUNS; run++) {
        double before = micros();
        for (size_t place = 0; place < count; place++) add(place);
        double took = (micros() - before) / count;
        if (took < best) best = took;
    }
    printf("%-52s%8.2f\n", way, best);
}

static uint64_t asked;
static size_t asked_of;

static void ask_rank(size_t place) {
    asked += rank_of(asked_of, keys[place * 40503 % asked_of]);
}

int main(int count, char **words) {
    size_t keys_added = count > 1 ? strtoul(words[1], NULL, 10) : 0;
    if (keys_added == 0 || keys_added > MOST) return 2;
    for (size_t place = 0; place < keys_added; place++) {
        uint32_t key = random();
        memcpy(keys[place], &key, 4);
    }
    measure("all numbers are written", keys_added, insert_and_number_all);
    measure("those from the new key on are written", keys_added, insert_and_number_the_rest);
    measure("none is written, places of 8 bytes", keys_added, insert_only);
    measure("none is written, places of 4 bytes", keys_added, insert_short);
    measure("none is written, blocks of places of 4 bytes", keys_added, insert_into_blocks);
    asked_of = keys_added;
    measure("a rank that is asked for", keys_added, ask_rank);
    uint64_t sum = asked;
    for (size_t i = 0; i < MOST; i++) sum += serials[i].number + serials[i].given + hints[i];
    for (size_t i = 0; i < BLOCKS; i++) sum += ranks[i];
    return sum == 1;
}
