/* UTF-8 as RFC 3629 has it: no surrogates, no longer form than needed, nothing past 10FFFF. */
#ifndef UTF8_H
#define UTF8_H

#include <stddef.h>

/* How many bytes the character at the front of `text` has: 1 to 4, or 0 where none begins there. */
size_t utf8_character(const unsigned char *text, size_t length);
/* How many bytes at the front of `text` are whole characters. */
size_t utf8_valid(const char *text, size_t length);

#endif
