/* inictl: gets, sets and lists what INI files have; see inictl(1). */
#include <stdio.h>
#include <stdlib.h>
#include <string.h>

#include "inifile.h"

static int usage(FILE *out)
{
    fputs("usage: inictl get FILE SECTION KEY\n"
          "       inictl set FILE SECTION KEY VALUE\n"
          "       inictl list FILE\n"
          "       inictl --version\n",
          out);
    return out == stdout ? 0 : 2;
}

static int complain(const char *path, size_t line, enum ini_error error)
{
    if (line == 0)
        fprintf(stderr, "inictl: %s: %s\n", path, ini_error_text(error));
    else
        fprintf(stderr, "inictl: %s:%zu: %s\n", path, line, ini_error_text(error));
    return 1;
}

static int get(const struct ini *ini, char **words)
{
    const char *value = ini_get(ini, words[1], words[2]);
    if (value == NULL)
        return complain(words[0], 0, INI_ABSENT);
    puts(value);
    return 0;
}

static int set(struct ini *ini, char **words)
{
    enum ini_error error = ini_set(ini, words[1], words[2], words[3]);
    if (error == INI_NONE)
        error = ini_save(ini, words[0]);
    return error == INI_NONE ? 0 : complain(words[0], 0, error);
}

static int list(const struct ini *ini)
{
    for (size_t i = 0; i < ini_section_count(ini); i++) {
        for (size_t j = 0; j < ini_entry_count(ini, i); j++) {
            struct ini_entry entry = ini_entry_at(ini, i, j);
            printf("%s.%s=%s\n", entry.section, entry.key, entry.value);
        }
    }
    return 0;
}

int main(int argc, char **argv)
{
    if (argc == 2 && strcmp(argv[1], "--help") == 0)
        return usage(stdout);
    if (argc == 2 && strcmp(argv[1], "--version") == 0)
        return printf("inictl %s\n", ini_version()) < 0;
    bool is_get = argc == 5 && strcmp(argv[1], "get") == 0;
    bool is_set = argc == 6 && strcmp(argv[1], "set") == 0;
    bool is_list = argc == 3 && strcmp(argv[1], "list") == 0;
    if (!is_get && !is_set && !is_list)
        return usage(stderr);
    struct ini *ini = ini_new();
    size_t line = 0;
    enum ini_error error = ini == NULL ? INI_MEMORY : ini_load(ini, argv[2], &line);
    int status = error != INI_NONE ? complain(argv[2], line, error)
        : is_get                   ? get(ini, argv + 2)
        : is_set                   ? set(ini, argv + 2)
                                   : list(ini);
    ini_free(ini);
    return status;
}
