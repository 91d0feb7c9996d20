#include <stdlib.h>
#include <string.h>

#include "check.h"
#include "config.h"
#include "inifile.h"

static bool has(const struct ini *ini, const char *section, const char *key, const char *value)
{
    const char *found = ini_get(ini, section, key);
    return found != NULL && strcmp(found, value) == 0;
}

/* The error of a text, and the line that it is at. */
static enum ini_error error_of(const char *text, size_t *line)
{
    struct ini *ini = ini_new();
    enum ini_error error = ini_read(ini, text, strlen(text), line);
    ini_free(ini);
    return error;
}

static void test_sample(void)
{
    char path[4096];
    size_t line;
    long long port = 0;
    bool verbose = false;
    struct ini *ini = ini_new();
    const char *folder = getenv("INIFILE_SAMPLES");
    snprintf(path, sizeof path, "%s/sample.ini", folder == NULL ? "." : folder);
    CHECK(ini_load(ini, path, &line) == INI_NONE);
    CHECK(has(ini, DEFAULT_SECTION, "title", "Gr\xC3\xBC\xC3\x9F" "e"));
    CHECK(has(ini, "server", "host", "example.org"));
    CHECK(ini_get_integer(ini, "server", "port", &port) == INI_NONE && port == 8081);
    CHECK(ini_get_truth(ini, "server", "verbose", &verbose) == INI_NONE && verbose);
    CHECK(ini_get_integer(ini, "server", "host", &port) == INI_INTEGER);
    CHECK(ini_get_truth(ini, "server", "port", &verbose) == INI_TRUTH);
    CHECK(ini_get_integer(ini, "server", "absent", &port) == INI_ABSENT);
    CHECK(ini_get(ini, "absent", "port") == NULL);
    CHECK(ini_section_count(ini) == 2 && ini_entry_count(ini, 1) == 3);
    CHECK(ini_load(ini, "/no/such/file", &line) == INI_FILE && line == 0);
    ini_free(ini);
}

static void test_comments(void)
{
    size_t line;
    for (const char *mark = COMMENT_MARKS; *mark != '\0'; mark++) {
        char text[] = " ? no key\na = b\n";
        text[1] = *mark;
        CHECK(error_of(text, &line) == INI_NONE);
    }
    CHECK(error_of("? no key\n", &line) == INI_KEY);
}

int main(void)
{
    size_t line;
    test_sample();
    test_comments();
    CHECK(error_of("", &line) == INI_NONE);
    CHECK(error_of("[a]\r\n b = c \r\n", &line) == INI_NONE);
    CHECK(error_of("a = b\n[open\n", &line) == INI_SECTION && line == 2);
    CHECK(error_of("[]\n", &line) == INI_SECTION && line == 1);
    CHECK(error_of("\n\nword\n", &line) == INI_KEY && line == 3);
    CHECK(error_of(" = value", &line) == INI_KEY && line == 1);
    CHECK(error_of("a = \xFF\n", &line) == INI_UTF8 && line == 1);
    char *text = malloc(LONGEST_LINE + 2);
    memset(text, 'a', LONGEST_LINE + 1);
    text[LONGEST_LINE + 1] = '\0';
    text[1] = '=';
    CHECK(error_of(text, &line) == INI_LONG_LINE && line == 1);
    text[LONGEST_LINE] = '\0';
    CHECK(error_of(text, &line) == INI_NONE);
    free(text);
    return failures != 0;
}
