/* Hawkottoman for C: `meson setup` for C projects as a pure function from a source tree in memory to the build files.
 *
 * A call reads seven slices and writes one answer. It opens no file, starts no process and keeps no state, so any number of
 * threads may call at the same time. Link with libhawkottoman.a or libhawkottoman.so:
 *
 *     cc program.c $(pkg-config --cflags --libs hawkottoman)
 *
 * examples/embed/configure.c in the repository is a whole program.
 */
#ifndef HAWKOTTOMAN_H
#define HAWKOTTOMAN_H

#include <stddef.h>
#include <stdint.h>

#ifdef __cplusplus
extern "C" {
#endif

/* The status that a call returns. */
enum hawkottoman_status {
    HAWKOTTOMAN_DONE = 0,     /* the run wrote all its outputs */
    HAWKOTTOMAN_FAULT = 1,    /* the definition files are refused: an `E` event has the line that says why */
    HAWKOTTOMAN_MEMORY = 3,   /* memory ran out: neither the room nor *length means anything */
    HAWKOTTOMAN_SETTINGS = 4, /* source_root is no absolute path, or build_folder is none of 1 to 64 parts without `..` */
    HAWKOTTOMAN_SLICES = 5    /* the slices spell no tree or no option arguments, or a directory isn't UTF-8 */
};

/* The calls. Each takes
 *
 *   paths         the paths of the files, relative to the source directory: UTF-8, each ended by a zero byte, no two the same
 *   sizes         the size of each file in bytes; sizes_count says how many files there are
 *   contents      the contents of the files, joined, in the order of the paths
 *   words         the option arguments (`name=value`, as after -D): UTF-8, each ended by a zero byte
 *   machine       the bytes of the machine file, or none
 *   source_root   the path of the source directory: absolute, UTF-8
 *   build_folder  the path of the build directory, relative to the source directory: UTF-8
 *   room          where the answer goes
 *   length        where the length of the whole answer goes
 *
 * and each *_length and sizes_count is a number of elements. No pointer may be null, also where its length is 0. The calls read
 * no more than the lengths say and write no more than room_length bytes, and *length. Nothing else may write any of these
 * while a call runs, and room and *length may not overlap the others.
 *
 * The answer. With HAWKOTTOMAN_DONE and HAWKOTTOMAN_FAULT, *length is the length of the whole answer, and the first
 * min(room_length, *length) bytes of the room are the beginning of the answer. So a caller with too little room calls again
 * with *length bytes. With HAWKOTTOMAN_SETTINGS and HAWKOTTOMAN_SLICES the room is as it was, and *length is 0.
 *
 * An answer is a list of events, in the order in which the run wrote them. An event is a kind byte, the number of its bytes
 * (8 bytes, the lowest first), and these bytes:
 *
 *   'O'  an output begins: the bytes are its path, relative to the build directory
 *   'B'  bytes of the output that is open
 *   'C'  the output ends; there are no bytes
 *   'L'  bytes of the log
 *   'E'  bytes of a fault's line
 *
 * Bytes of one kind that follow one another are one event.
 */

/* Configures the project, as `meson setup` does: writes build.ninja and the introspection document. */
uint8_t hawkottoman_setup(const uint8_t *paths, size_t paths_length,
                          const uint64_t *sizes, size_t sizes_count,
                          const uint8_t *contents, size_t contents_length,
                          const uint8_t *words, size_t words_length,
                          const uint8_t *machine, size_t machine_length,
                          const uint8_t *source_root, size_t source_root_length,
                          const uint8_t *build_folder, size_t build_folder_length,
                          uint8_t *room, size_t room_length, uint64_t *length);

/* Lists what the project asks the machine file, as `meson questions` does: lines of the log. */
uint8_t hawkottoman_questions(const uint8_t *paths, size_t paths_length,
                              const uint64_t *sizes, size_t sizes_count,
                              const uint8_t *contents, size_t contents_length,
                              const uint8_t *words, size_t words_length,
                              const uint8_t *machine, size_t machine_length,
                              const uint8_t *source_root, size_t source_root_length,
                              const uint8_t *build_folder, size_t build_folder_length,
                              uint8_t *room, size_t room_length, uint64_t *length);

/* Says in which fault the project ends, and what the fault is about, as `meson fault` does. */
uint8_t hawkottoman_fault(const uint8_t *paths, size_t paths_length,
                          const uint64_t *sizes, size_t sizes_count,
                          const uint8_t *contents, size_t contents_length,
                          const uint8_t *words, size_t words_length,
                          const uint8_t *machine, size_t machine_length,
                          const uint8_t *source_root, size_t source_root_length,
                          const uint8_t *build_folder, size_t build_folder_length,
                          uint8_t *room, size_t room_length, uint64_t *length);

#ifdef __cplusplus
}
#endif

#endif
