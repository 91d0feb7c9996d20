#include "ini.h"

#include <stdio.h>
#include <stdlib.h>
#include <string.h>

#include "config.h"
#include "utf8.h"

/* The text without blanks at its ends; it is cut in place. */
static char *trimmed(char *text)
{
    text += strspn(text, " \t");
    size_t length = strlen(text);
    while (length > 0 && (text[length - 1] == ' ' || text[length - 1] == '\t'))
        length--;
    text[length] = '\0';
    return text;
}

/* `section` has room for a whole line, and is the section that keys fall into from now on. */
static enum ini_error read_line(struct ini *ini, char *line, char *section)
{
    char *text = trimmed(line);
    if (*text == '\0' || strchr(COMMENT_MARKS, *text) != NULL)
        return INI_NONE;
    if (*text == '[') {
        char *end = strchr(text, ']');
        if (end == NULL || end[1] != '\0')
            return INI_SECTION;
        *end = '\0';
        strcpy(section, trimmed(text + 1));
        return *section == '\0' ? INI_SECTION : INI_NONE;
    }
    char *equals = strchr(text, '=');
    if (equals == NULL)
        return INI_KEY;
    *equals = '\0';
    char *key = trimmed(text);
    return *key == '\0' ? INI_KEY : ini_put(ini, section, key, trimmed(equals + 1));
}

/* Where the first line of a text ends, without its newline or carriage return and newline. */
static size_t line_length(const char *text, size_t length, size_t *with_end)
{
    const char *newline = memchr(text, '\n', length);
    size_t end = newline == NULL ? length : (size_t)(newline - text);
    *with_end = newline == NULL ? length : end + 1;
    return newline != NULL && end > 0 && text[end - 1] == '\r' ? end - 1 : end;
}

static enum ini_error check_line(const char *text, size_t length)
{
    if (length > LONGEST_LINE)
        return INI_LONG_LINE;
    if (utf8_valid(text, length) != length)
        return INI_UTF8;
    return memchr(text, '\0', length) == NULL ? INI_NONE : INI_TEXT;
}

enum ini_error ini_read(struct ini *ini, const char *text, size_t length, size_t *line)
{
    enum ini_error error = INI_NONE;
    size_t longest = LONGEST_LINE > sizeof DEFAULT_SECTION ? LONGEST_LINE : sizeof DEFAULT_SECTION;
    char *buffer = malloc(longest + 1), *section = malloc(longest + 1);
    *line = 0;
    if (buffer == NULL || section == NULL)
        error = INI_MEMORY;
    else
        strcpy(section, DEFAULT_SECTION);
    while (error == INI_NONE && length > 0) {
        size_t with_end, end = line_length(text, length, &with_end);
        ++*line;
        error = check_line(text, end);
        if (error == INI_NONE) {
            memcpy(buffer, text, end);
            buffer[end] = '\0';
            error = read_line(ini, buffer, section);
        }
        text += with_end;
        length -= with_end;
    }
    free(buffer);
    free(section);
    return error;
}

/* The bytes of a whole file, to be freed by the caller. */
static enum ini_error read_file(const char *path, char **text, size_t *length)
{
    FILE *file = fopen(path, "rb");
    size_t room = 0;
    *text = NULL;
    *length = 0;
    if (file == NULL)
        return INI_FILE;
    do {
        if (*length == room) {
            char *moved = realloc(*text, room = room == 0 ? 4096 : room * 2);
            if (moved == NULL) {
                fclose(file);
                return INI_MEMORY;
            }
            *text = moved;
        }
        *length += fread(*text + *length, 1, room - *length, file);
    } while (!feof(file) && !ferror(file));
    bool failed = ferror(file) != 0;
    fclose(file);
    return failed ? INI_FILE : INI_NONE;
}

enum ini_error ini_load(struct ini *ini, const char *path, size_t *line)
{
    char *text;
    size_t length;
    *line = 0;
    enum ini_error error = read_file(path, &text, &length);
    if (error == INI_NONE)
        error = ini_read(ini, text, length, line);
    free(text);
    return error;
}
