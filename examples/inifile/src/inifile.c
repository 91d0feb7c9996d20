#include "ini.h"

#include <errno.h>
#include <stdlib.h>
#include <string.h>

#include "config.h"
#include "utf8.h"

struct ini *ini_new(void)
{
    return calloc(1, sizeof(struct ini));
}

static void free_section(struct section *section)
{
    for (size_t i = 0; i < section->count; i++) {
        free(section->pairs[i].key);
        free(section->pairs[i].value);
    }
    free(section->pairs);
    free(section->name);
    map_free(&section->map);
}

void ini_free(struct ini *ini)
{
    if (ini == NULL)
        return;
    for (size_t i = 0; i < ini->count; i++)
        free_section(&ini->sections[i]);
    free(ini->sections);
    map_free(&ini->map);
    free(ini);
}

static char *copied(const char *text)
{
    size_t size = strlen(text) + 1;
    char *copy = malloc(size);
    return copy == NULL ? NULL : memcpy(copy, text, size);
}

/* An array with room for one more item, and null, the old one left, where memory runs out. */
static void *with_room(void *items, size_t count, size_t *room, size_t size)
{
    if (count < *room)
        return items;
    size_t more = *room == 0 ? 8 : *room * 2;
    void *moved = more > (size_t)-1 / size ? NULL : realloc(items, more * size);
    if (moved != NULL)
        *room = more;
    return moved;
}

/* The section of a name, which is made where it isn't there; null where memory runs out. */
static struct section *section_of(struct ini *ini, const char *name)
{
    size_t index;
    if (map_find(&ini->map, name, &index))
        return &ini->sections[index];
    struct section *sections = with_room(ini->sections, ini->count, &ini->room, sizeof *sections);
    if (sections == NULL)
        return NULL;
    ini->sections = sections;
    char *copy = copied(name);
    if (copy == NULL || !map_add(&ini->map, copy, ini->count)) {
        free(copy);
        return NULL;
    }
    struct section *section = &sections[ini->count++];
    *section = (struct section){ .name = copy };
    return section;
}

/* Adds a key that isn't there, and takes the value; where memory runs out both are as they were. */
static bool add_pair(struct section *section, const char *key, char *value)
{
    struct pair *pairs = with_room(section->pairs, section->count, &section->room, sizeof *pairs);
    if (pairs == NULL)
        return false;
    section->pairs = pairs;
    char *copy = copied(key);
    if (copy == NULL || !map_add(&section->map, copy, section->count)) {
        free(copy);
        return false;
    }
    pairs[section->count++] = (struct pair){ copy, value };
    return true;
}

enum ini_error ini_put(struct ini *ini, const char *section, const char *key, const char *value)
{
    size_t index;
    struct section *owner = section_of(ini, section);
    char *copy = copied(value);
    if (owner == NULL || copy == NULL) {
        free(copy);
        return INI_MEMORY;
    }
    if (map_find(&owner->map, key, &index)) {
        free(owner->pairs[index].value);
        owner->pairs[index].value = copy;
    } else if (!add_pair(owner, key, copy)) {
        free(copy);
        return INI_MEMORY;
    }
    return INI_NONE;
}

/* Returns whether a text fits on one line and has no blanks at its ends, which a reader would drop. */
static bool is_plain(const char *text, const char *barred)
{
    size_t length = strlen(text);
    bool has_blank_end = length > 0 && (strchr(" \t", text[0]) != NULL || strchr(" \t", text[length - 1]) != NULL);
    return !has_blank_end && strpbrk(text, "\r\n") == NULL && strpbrk(text, barred) == NULL
        && utf8_valid(text, length) == length;
}

enum ini_error ini_set(struct ini *ini, const char *section, const char *key, const char *value)
{
    bool is_key = *key != '\0' && *key != '[' && strchr(COMMENT_MARKS, *key) == NULL && is_plain(key, "=");
    bool fits = strlen(section) + 2 <= LONGEST_LINE && strlen(key) + 3 + strlen(value) <= LONGEST_LINE;
    if (!is_key || !fits || *section == '\0' || !is_plain(section, "]") || !is_plain(value, ""))
        return INI_TEXT;
    return ini_put(ini, section, key, value);
}

const char *ini_get(const struct ini *ini, const char *section, const char *key)
{
    size_t index;
    if (!map_find(&ini->map, section, &index))
        return NULL;
    const struct section *owner = &ini->sections[index];
    return map_find(&owner->map, key, &index) ? owner->pairs[index].value : NULL;
}

enum ini_error ini_get_integer(const struct ini *ini, const char *section, const char *key, long long *value)
{
    const char *text = ini_get(ini, section, key);
    if (text == NULL)
        return INI_ABSENT;
    char *end;
    errno = 0;
    long long number = strtoll(text, &end, 0);
    if (end == text || *end != '\0' || errno != 0)
        return INI_INTEGER;
    *value = number;
    return INI_NONE;
}

enum ini_error ini_get_truth(const struct ini *ini, const char *section, const char *key, bool *value)
{
    static const char *const words[] = { "false", "true", "no", "yes", "off", "on", "0", "1" };
    const char *text = ini_get(ini, section, key);
    if (text == NULL)
        return INI_ABSENT;
    for (size_t i = 0; i < sizeof words / sizeof *words; i++) {
        if (strcmp(text, words[i]) == 0) {
            *value = i % 2 == 1;
            return INI_NONE;
        }
    }
    return INI_TRUTH;
}

size_t ini_section_count(const struct ini *ini)
{
    return ini->count;
}

size_t ini_entry_count(const struct ini *ini, size_t section)
{
    return ini->sections[section].count;
}

struct ini_entry ini_entry_at(const struct ini *ini, size_t section, size_t entry)
{
    const struct section *owner = &ini->sections[section];
    return (struct ini_entry){ owner->name, owner->pairs[entry].key, owner->pairs[entry].value };
}

const char *ini_version(void)
{
    return VERSION;
}
