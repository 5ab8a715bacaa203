// A hash table of chains, to compare look-ups and updates of maps with: heads, links, and keys and
// values in two blocks, all reserved at making. Prints nanoseconds for each call.
#include <stdint.h>
#include <stdio.h>
#include <stdlib.h>
#include <string.h>
#include <time.h>

enum { ENTRIES = 65536, ROUNDS = 200, NONE = -1 };

struct link {
    uint32_t chain, place;
    int64_t next;
};

struct map {
    uint32_t key_size, value_size, entries, free_count;
    int64_t *heads;
    struct link *links;
    uint32_t *free;
    uint8_t *keys, *values;
};

static uint32_t chain_of(const uint8_t *key, uint32_t size, uint32_t chains) {
    uint64_t hash = 0;
    for (uint32_t i = 0; i < size; i += 4) {
        uint32_t word = 0;
        memcpy(&word, key + i, size - i < 4 ? size - i : 4);
        hash = (hash + word) * 0xd6e8feb86659fd93u;
    }
    return (hash >> 32) * chains >> 32;
}

static struct map make(uint32_t key_size, uint32_t value_size, uint32_t entries) {
    struct map m = {key_size, value_size, entries, entries};
    m.heads = malloc(entries * sizeof *m.heads);
    m.links = malloc(entries * sizeof *m.links);
    m.free = malloc(entries * sizeof *m.free);
    m.keys = calloc(entries, key_size);
    m.values = calloc(entries, value_size);
    for (uint32_t i = 0; i < entries; i++) {
        m.heads[i] = NONE;
        m.free[i] = entries - 1 - i;
    }
    return m;
}

static __attribute__((noinline)) uint8_t *look_up(struct map *m, const uint8_t *key) {
    for (int64_t at = m->heads[chain_of(key, m->key_size, m->entries)]; at != NONE; at = m->links[at].next)
        if (!memcmp(m->keys + m->links[at].place * m->key_size, key, m->key_size))
            return m->values + m->links[at].place * m->value_size;
    return NULL;
}

static __attribute__((noinline)) int update(struct map *m, const uint8_t *key, const uint8_t *value) {
    uint8_t *old = look_up(m, key);
    if (!old) {
        if (!m->free_count)
            return -7;
        uint32_t place = m->free[--m->free_count], chain = chain_of(key, m->key_size, m->entries);
        m->links[place] = (struct link){chain, place, m->heads[chain]};
        m->heads[chain] = place;
        memcpy(m->keys + place * m->key_size, key, m->key_size);
        old = m->values + place * m->value_size;
    }
    memcpy(old, value, m->value_size);
    return 0;
}

static uint64_t now(void) {
    struct timespec t;
    clock_gettime(CLOCK_MONOTONIC, &t);
    return t.tv_sec * 1000000000ull + t.tv_nsec;
}

// the keys in an order that jumps about
static uint32_t number(uint32_t i) { return i * 40503u % ENTRIES; }

static void report(const char *what, uint64_t start, uint64_t sum) {
    printf("%s %.1f %llu\n", what, (double)(now() - start) / ((double)ENTRIES * ROUNDS), (unsigned long long)sum);
}

int main(void) {
    uint64_t start = now(), sum = 0;
    struct map m = make(4, 8, ENTRIES);
    for (uint32_t i = 0; i < ENTRIES; i++) {
        uint64_t value = i;
        update(&m, (uint8_t *)&i, (uint8_t *)&value);
    }
    start = now();
    for (uint32_t r = 0; r < ROUNDS; r++)
        for (uint32_t i = 0; i < ENTRIES; i++) {
            uint32_t key = number(i);
            uint8_t *value = look_up(&m, (uint8_t *)&key);
            sum += value ? value[0] : 1;
        }
    report("present", start, sum);
    start = now();
    for (uint32_t r = 0; r < ROUNDS; r++)
        for (uint32_t i = 0; i < ENTRIES; i++) {
            uint32_t key = number(i) + ENTRIES;
            sum += look_up(&m, (uint8_t *)&key) ? 1 : 0;
        }
    report("absent", start, sum);
    start = now();
    for (uint32_t r = 0; r < ROUNDS; r++)
        for (uint32_t i = 0; i < ENTRIES; i++) {
            uint32_t key = number(i);
            uint64_t value = r + i;
            sum += update(&m, (uint8_t *)&key, (uint8_t *)&value);
        }
    report("update", start, sum);
}
