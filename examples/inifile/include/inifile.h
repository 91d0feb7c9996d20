/* Reads and writes INI files: UTF-8 text of sections, keys and values.
 *
 *     name = value         ; in the section "general"
 *     [section]
 *     key = a longer value
 *
 * Texts that a call returns belong to the file and are valid until it is changed or freed. Several threads
 * may read one file at once. A thread that changes it must be the only one that uses it.
 */
#ifndef INIFILE_H
#define INIFILE_H

#include <stdbool.h>
#include <stddef.h>

#include "inifile-errors.h"

#ifdef __GNUC__
#define INI_API __attribute__((visibility("default")))
#else
#define INI_API
#endif

struct ini;

struct ini_entry {
    const char *section;
    const char *key;
    const char *value;
};

/* A file without sections, or null where memory runs out. */
INI_API struct ini *ini_new(void);
INI_API void ini_free(struct ini *ini);

/* Adds the sections and keys of a text. A key that exists takes the new value. After an error, `line` is the line of
 * the error, counted from 1, or 0 if no line has it; the lines before it have been added. */
INI_API enum ini_error ini_read(struct ini *ini, const char *text, size_t length, size_t *line);
INI_API enum ini_error ini_load(struct ini *ini, const char *path, size_t *line);

/* The text of the whole file, to be freed by the caller, or null where memory runs out. */
INI_API char *ini_text(const struct ini *ini);
/* Writes that text to a file next to `path` and renames it: a reader sees the old file or the new one. */
INI_API enum ini_error ini_save(const struct ini *ini, const char *path);

/* The value of a key, or null. */
INI_API const char *ini_get(const struct ini *ini, const char *section, const char *key);
INI_API enum ini_error ini_get_integer(const struct ini *ini, const char *section, const char *key, long long *value);
/* true, yes, on and 1; false, no, off and 0. */
INI_API enum ini_error ini_get_truth(const struct ini *ini, const char *section, const char *key, bool *value);
INI_API enum ini_error ini_set(struct ini *ini, const char *section, const char *key, const char *value);

/* Sections in the order in which they came, and so the entries of each. Numbers begin with 0. */
INI_API size_t ini_section_count(const struct ini *ini);
INI_API size_t ini_entry_count(const struct ini *ini, size_t section);
INI_API struct ini_entry ini_entry_at(const struct ini *ini, size_t section, size_t entry);

INI_API const char *ini_error_text(enum ini_error error);
INI_API const char *ini_version(void);

#endif
