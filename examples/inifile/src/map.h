/* A hash map from texts to numbers. It keeps pointers to the texts, which must outlive it. */
#ifndef MAP_H
#define MAP_H

#include <stdbool.h>
#include <stddef.h>

struct map_slot {
    const char *key; /* null in an empty slot */
    size_t hash;
    size_t value;
};

struct map {
    struct map_slot *slots;
    size_t room; /* zero, or a power of two */
    size_t count;
};

void map_free(struct map *map);
bool map_find(const struct map *map, const char *key, size_t *value);
/* Adds a key that isn't there. False where memory runs out; the map is then as it was. */
bool map_add(struct map *map, const char *key, size_t value);
/* The hash of a text, by a seed that this process has drawn once. */
size_t map_hash(const char *key);

#endif
