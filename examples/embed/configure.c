/* Configures a project whose files are in memory, and prints its build.ninja:
 *
 *     cc configure.c $(pkg-config --cflags --libs hawkottoman) && ./a.out
 */
#include <hawkottoman.h>
#include <stdio.h>
#include <stdlib.h>
#include <string.h>

static const char build[] = "project('embed', 'c')\nexecutable('embed', 'main.c')\n";
static const char code[] = "int main(void) { return 0; }\n";
static const char machine[] = "[binaries]\nc = 'cc'\nar = 'ar'\n";

int main(void) {
    /* Two files: their paths, their sizes and their contents. */
    static const char paths[] = "meson.build\0main.c";
    const uint64_t sizes[] = {sizeof build - 1, sizeof code - 1};
    char contents[sizeof build + sizeof code];
    memcpy(contents, build, sizeof build - 1);
    memcpy(contents + sizeof build - 1, code, sizeof code - 1);

    uint8_t *room = malloc(1);
    uint64_t length = 1, size;
    uint8_t status;
    do {
        /* The first call says how much room the answer needs. */
        size = length;
        uint8_t *more = realloc(room, size);
        if (more == NULL)
            return 3;
        room = more;
        status = hawkottoman_setup((const uint8_t *)paths, sizeof paths, sizes, 2,
            (const uint8_t *)contents, sizes[0] + sizes[1], (const uint8_t *)"", 0,
            (const uint8_t *)machine, sizeof machine - 1, (const uint8_t *)"/src", 4,
            (const uint8_t *)"build", 5, room, size, &length);
    } while (status <= HAWKOTTOMAN_FAULT && length > size);

    int is_ninja = 0;
    for (uint64_t at = 0; status <= HAWKOTTOMAN_FAULT && at < length;) {
        uint64_t bytes = 0;
        for (int i = 8; i > 0; i--)
            bytes = bytes << 8 | room[at + i];
        const uint8_t *event = room + at + 9;
        if (room[at] == 'O')
            is_ninja = bytes == 11 && memcmp(event, "build.ninja", 11) == 0;
        else if (room[at] == 'B' && is_ninja)
            fwrite(event, 1, bytes, stdout);
        else if (room[at] == 'E')
            fwrite(event, 1, bytes, stderr);
        at += 9 + bytes;
    }
    free(room);
    return status;
}
