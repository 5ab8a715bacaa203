/* Maps for the filters of this folder: as libbpf declares them, with the four helpers that xdpvm has; compiled for this machine
   (HOST) as rows that are searched one by one. */
#define NOEXIST 1
#define EXIST 2

#ifndef HOST

#define MAP(name, kind, key_type, value_type, entries)                                                                         \
    struct {                                                                                                                   \
        int (*type)[kind];                                                                                                     \
        key_type *key;                                                                                                         \
        value_type *value;                                                                                                     \
        int (*max_entries)[entries];                                                                                           \
    } name SEC(".maps")
HELPER(1, void *, look_up, void *map, const void *key);
HELPER(2, long, update, void *map, const void *key, const void *value, __u64 flags);
HELPER(3, long, delete, void *map, const void *key);
HELPER(5, __u64, now, void);

#else

#include <stdlib.h>
#include <string.h>
struct map {
    int kind;
    unsigned int key_size, value_size, entries, count;
    char *keys, *values;
};
#define MAP(name, kind, key_type, value_type, entries)                                                                         \
    static struct map name = {kind, sizeof(key_type), sizeof(value_type), entries}
static __u64 host_time;

static __u64 now(void)
{
    return host_time;
}

static int is_array(struct map *map)
{
    return map->kind == BPF_MAP_TYPE_ARRAY || map->kind == BPF_MAP_TYPE_PERCPU_ARRAY;
}

/* The row of a key, or -1. An array has a row for each index. */
static long row_of(struct map *map, const void *key)
{
    if (!map->keys) {
        map->keys = calloc(map->entries, map->key_size);
        map->values = calloc(map->entries, map->value_size);
    }
    if (is_array(map))
        return *(__u32 *)key < map->entries ? *(__u32 *)key : -1;
    for (long row = 0; row < map->count; row++)
        if (!memcmp(map->keys + row * map->key_size, key, map->key_size))
            return row;
    return -1;
}

static void *look_up(void *given, const void *key)
{
    struct map *map = given;
    long row = row_of(map, key);
    return row < 0 ? NULL : map->values + row * map->value_size;
}

static long update(void *given, const void *key, const void *value, __u64 flags)
{
    struct map *map = given;
    long row = row_of(map, key);
    if (row < 0 ? flags == EXIST : flags == NOEXIST)
        return -1;
    if (row < 0 && (is_array(map) || map->count == map->entries))
        return -1;
    if (row < 0)
        memcpy(map->keys + (row = map->count++) * map->key_size, key, map->key_size);
    memcpy(map->values + row * map->value_size, value, map->value_size);
    return 0;
}

static long delete(void *given, const void *key)
{
    struct map *map = given;
    long row = row_of(map, key);
    if (row < 0 || is_array(map))
        return -1;
    map->count--;
    memmove(map->keys + row * map->key_size, map->keys + map->count * map->key_size, map->key_size);
    memmove(map->values + row * map->value_size, map->values + map->count * map->value_size, map->value_size);
    return 0;
}

#endif
