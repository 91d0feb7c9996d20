/* What the parts of the library share. */
#ifndef INI_H
#define INI_H

#include "inifile.h"
#include "map.h"

struct pair {
    char *key;
    char *value;
};

struct section {
    char *name;
    struct pair *pairs;
    size_t count, room;
    struct map map; /* from keys to their places in `pairs` */
};

struct ini {
    struct section *sections;
    size_t count, room;
    struct map map; /* from names to their places in `sections` */
};

/* `ini_set` of texts that were read from a file, so that a file can hold them. */
enum ini_error ini_put(struct ini *ini, const char *section, const char *key, const char *value);

#endif
