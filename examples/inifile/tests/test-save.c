#include <stdlib.h>
#include <string.h>

#include "check.h"
#include "config.h"
#include "inifile.h"

#define END (CRLF ? "\r\n" : "\n")

int main(void)
{
    static const char path[] = "test-save.ini";
    char wanted[256];
    size_t line;
    struct ini *ini = ini_new(), *again = ini_new();
    CHECK(ini_set(ini, "one", "a", "1") == INI_NONE);
    CHECK(ini_set(ini, "two", "b", "x = y ; z") == INI_NONE);
    CHECK(ini_set(ini, "one", "c", "") == INI_NONE);
    CHECK(ini_set(ini, "one", "a", "2") == INI_NONE);
    CHECK(ini_set(ini, "", "a", "1") == INI_TEXT);
    CHECK(ini_set(ini, "one", "a=b", "1") == INI_TEXT);
    CHECK(ini_set(ini, "one", "[a", "1") == INI_TEXT);
    CHECK(ini_set(ini, "one", "a", " 1") == INI_TEXT);
    CHECK(ini_set(ini, "one", "a", "1\n2") == INI_TEXT);
    CHECK(ini_set(ini, "one", "a", "\xC0\x80") == INI_TEXT);
    snprintf(wanted, sizeof wanted, "[one]%sa = 2%sc = %s%s[two]%sb = x = y ; z%s", END, END, END, END, END, END);
    char *text = ini_text(ini);
    CHECK(text != NULL && strcmp(text, wanted) == 0);
    CHECK(ini_save(ini, path) == INI_NONE);
    CHECK(ini_load(again, path, &line) == INI_NONE);
    char *copy = ini_text(again);
    CHECK(copy != NULL && strcmp(copy, wanted) == 0);
    CHECK(ini_save(ini, "/no/such/folder/file") == INI_FILE);
    CHECK(strcmp(ini_version(), VERSION) == 0);
    CHECK(strcmp(ini_error_text(INI_NONE), "no error") == 0);
    remove(path);
    free(text);
    free(copy);
    ini_free(ini);
    ini_free(again);
    return failures != 0;
}
