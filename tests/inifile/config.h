/* What the machine and the options say; see meson.build and meson.options. */
#ifndef CONFIG_H
#define CONFIG_H

#define HAVE_SYS_RANDOM_H
#define HAVE_GETRANDOM
#define HAVE_FSYNC
#define HAVE_THREADS

#define SIZEOF_SIZE_T 8
#define LONGEST_LINE 4096
#define CRLF 0
#define COMMENT_MARKS "#;"
#define DEFAULT_SECTION "general"
#define VERSION "1.2.0"

#endif
