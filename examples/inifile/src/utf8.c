#include "utf8.h"

size_t utf8_character(const unsigned char *text, size_t length)
{
    /* The second byte decides whether a form is too long, a surrogate or past the last character. */
    unsigned char lowest = 0x80, highest = 0xBF;
    size_t count;
    if (length == 0)
        return 0;
    unsigned char first = text[0];
    if (first < 0x80)
        return 1;
    if (first >= 0xC2 && first <= 0xDF) {
        count = 2;
    } else if (first >= 0xE0 && first <= 0xEF) {
        count = 3;
        lowest = first == 0xE0 ? 0xA0 : 0x80;
        highest = first == 0xED ? 0x9F : 0xBF;
    } else if (first >= 0xF0 && first <= 0xF4) {
        count = 4;
        lowest = first == 0xF0 ? 0x90 : 0x80;
        highest = first == 0xF4 ? 0x8F : 0xBF;
    } else {
        return 0;
    }
    if (length < count || text[1] < lowest || text[1] > highest)
        return 0;
    for (size_t i = 2; i < count; i++)
        if (text[i] < 0x80 || text[i] > 0xBF)
            return 0;
    return count;
}

size_t utf8_valid(const char *text, size_t length)
{
    const unsigned char *bytes = (const unsigned char *)text;
    size_t done = 0, count;
    while ((count = utf8_character(bytes + done, length - done)) != 0)
        done += count;
    return done;
}
