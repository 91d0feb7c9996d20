#include "ini.h"

#include <stdio.h>
#include <stdlib.h>
#include <string.h>

#include "config.h"

#ifdef HAVE_FSYNC
#include <unistd.h>
#endif

#if CRLF
#define LINE_END "\r\n"
#else
#define LINE_END "\n"
#endif

/* A front of the text, which is only measured where there is no room for it. */
struct output {
    char *text;
    size_t length;
};

static void put(struct output *out, const char *text)
{
    size_t length = strlen(text);
    if (out->text != NULL)
        memcpy(out->text + out->length, text, length);
    out->length += length;
}

static void put_sections(struct output *out, const struct ini *ini)
{
    for (size_t i = 0; i < ini->count; i++) {
        const struct section *section = &ini->sections[i];
        if (section->count == 0)
            continue;
        put(out, out->length == 0 ? "[" : LINE_END "[");
        put(out, section->name);
        put(out, "]" LINE_END);
        for (size_t j = 0; j < section->count; j++) {
            put(out, section->pairs[j].key);
            put(out, " = ");
            put(out, section->pairs[j].value);
            put(out, LINE_END);
        }
    }
}

char *ini_text(const struct ini *ini)
{
    struct output out = { NULL, 0 };
    put_sections(&out, ini);
    out.text = malloc(out.length + 1);
    if (out.text == NULL)
        return NULL;
    out.length = 0;
    put_sections(&out, ini);
    out.text[out.length] = '\0';
    return out.text;
}

static bool write_file(const char *path, const char *text)
{
    FILE *file = fopen(path, "wb");
    if (file == NULL)
        return false;
    bool written = fputs(text, file) != EOF && fflush(file) == 0;
#ifdef HAVE_FSYNC
    written = written && fsync(fileno(file)) == 0;
#endif
    return fclose(file) == 0 && written;
}

enum ini_error ini_save(const struct ini *ini, const char *path)
{
    static const char ending[] = ".new";
    size_t length = strlen(path);
    char *text = ini_text(ini), *beside = malloc(length + sizeof ending);
    enum ini_error error = text == NULL || beside == NULL ? INI_MEMORY : INI_NONE;
    if (error == INI_NONE) {
        memcpy(beside, path, length);
        memcpy(beside + length, ending, sizeof ending);
        if (!write_file(beside, text) || rename(beside, path) != 0) {
            remove(beside);
            error = INI_FILE;
        }
    }
    free(text);
    free(beside);
    return error;
}
