#include "map.h"

#include <stdint.h>
#include <stdlib.h>
#include <string.h>
#include <time.h>

#include "config.h"

#ifdef HAVE_SYS_RANDOM_H
#include <sys/random.h>
#endif
#ifdef HAVE_THREADS
#include <pthread.h>
#endif

#if SIZEOF_SIZE_T >= 8
#define FNV_BASIS 14695981039346656037U
#define FNV_PRIME 1099511628211U
#else
#define FNV_BASIS 2166136261U
#define FNV_PRIME 16777619U
#endif

static size_t seed;

/* A seed of each process's own, so that nobody can make keys that all fall into one slot. */
static void draw_seed(void)
{
#ifdef HAVE_GETRANDOM
    if (getrandom(&seed, sizeof seed, 0) == (ssize_t)sizeof seed)
        return;
#endif
    seed = (size_t)time(NULL) ^ (size_t)(uintptr_t)&seed;
}

static size_t the_seed(void)
{
#ifdef HAVE_THREADS
    static pthread_once_t once = PTHREAD_ONCE_INIT;
    pthread_once(&once, draw_seed);
#else
    static bool is_drawn;
    if (!is_drawn)
        draw_seed();
    is_drawn = true;
#endif
    return seed;
}

size_t map_hash(const char *key)
{
    size_t hash = FNV_BASIS ^ the_seed();
    for (; *key != '\0'; key++)
        hash = (hash ^ (unsigned char)*key) * FNV_PRIME;
    return hash ^ hash >> (SIZEOF_SIZE_T * 4 - 1);
}

void map_free(struct map *map)
{
    free(map->slots);
    *map = (struct map){ NULL, 0, 0 };
}

/* The slot that has the key, or the empty one where it belongs; the map has room. */
static struct map_slot *slot_of(const struct map *map, const char *key, size_t hash)
{
    size_t i = hash & (map->room - 1);
    while (map->slots[i].key != NULL && (map->slots[i].hash != hash || strcmp(map->slots[i].key, key) != 0))
        i = (i + 1) & (map->room - 1);
    return &map->slots[i];
}

bool map_find(const struct map *map, const char *key, size_t *value)
{
    if (map->room == 0)
        return false;
    const struct map_slot *slot = slot_of(map, key, map_hash(key));
    if (slot->key == NULL)
        return false;
    *value = slot->value;
    return true;
}

static bool grow(struct map *map)
{
    struct map larger = { NULL, map->room == 0 ? 16 : map->room * 2, map->count };
    if (larger.room < map->room || (larger.slots = calloc(larger.room, sizeof *larger.slots)) == NULL)
        return false;
    for (size_t i = 0; i < map->room; i++) {
        const struct map_slot *old = &map->slots[i];
        if (old->key != NULL)
            *slot_of(&larger, old->key, old->hash) = *old;
    }
    free(map->slots);
    *map = larger;
    return true;
}

bool map_add(struct map *map, const char *key, size_t value)
{
    /* Three quarters are taken at most, so that a search finds an empty slot soon. */
    if (map->count >= map->room / 4 * 3 && !grow(map))
        return false;
    size_t hash = map_hash(key);
    *slot_of(map, key, hash) = (struct map_slot){ key, hash, value };
    map->count++;
    return true;
}
