#include <string.h>

#include "check.h"
#include "utf8.h"

static int is_whole(const char *text)
{
    return utf8_valid(text, strlen(text)) == strlen(text);
}

int main(void)
{
    CHECK(is_whole(""));
    CHECK(is_whole("plain"));
    CHECK(is_whole("\xC2\x80\xDF\xBF"));
    CHECK(is_whole("\xE0\xA0\x80\xED\x9F\xBF\xEE\x80\x80\xEF\xBF\xBF"));
    CHECK(is_whole("\xF0\x90\x80\x80\xF4\x8F\xBF\xBF"));
    CHECK(!is_whole("\x80"));
    CHECK(!is_whole("\xC0\x80"));
    CHECK(!is_whole("\xC1\xBF"));
    CHECK(!is_whole("\xE0\x9F\xBF"));
    CHECK(!is_whole("\xED\xA0\x80"));
    CHECK(!is_whole("\xF0\x8F\xBF\xBF"));
    CHECK(!is_whole("\xF4\x90\x80\x80"));
    CHECK(!is_whole("\xE2\x82"));
    CHECK(utf8_valid("ab\xFFzz", 5) == 2);
    CHECK(utf8_valid("a\0b", 3) == 3);
    return failures != 0;
}
