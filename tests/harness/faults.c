/* Replaces calls of the C library in a program under test (LD_PRELOAD), and makes one of these calls fail, or do something else, as the
 * environment says:
 *
 *   FAULTS_KIND    which calls are numbered for FAULTS_AT: memory, device (each call on files, folders and streams), put: a write into
 *                  a file that was made, or late: such a write that seems to succeed and is lost, so that the next fsync, fdatasync or
 *                  close of that file fails, as when a network disk or a quota reports the failure of earlier writes only then
 *   FAULTS_AT      the number, from 1, of the call that fails once; the calls after it go on, but a put and all puts after it fail
 *   FAULTS_ERROR   the number of the error with which a call of a device fails; EIO where it is not set
 *   FAULTS_PIECE   the most bytes that one read or write moves
 *   FAULTS_SYNC    none: fsync and fdatasync do nothing; all: a file is synced before each rename of it
 *   FAULTS_COUNTS  a file of 32 bytes: how many calls of memory, of devices, late ones and writes were made so far
 *   FAULTS_TRACE   a file to which the paths are added that were looked at ('look PATH'), made ('make PATH'), synced ('sync PATH') and
 *                  renamed to ('end PATH'), the call that failed and the path that it is of ('fail NAME PATH'), each call of a device
 *                  that came after that ('after NAME PATH'), and the one that reported a lost write ('told NAME PATH')
 *
 * If none is set, nothing changes. The trace has a path as the call has it, even if it is relative to an open folder. For an open file it
 * has the path with which the file was opened, and for the standard streams '<1>' and '<2>'. */
#define _GNU_SOURCE
#include <dirent.h>
#include <dlfcn.h>
#include <errno.h>
#include <fcntl.h>
#include <limits.h>
#include <malloc.h>
#include <stdarg.h>
#include <stdint.h>
#include <stdio.h>
#include <stdlib.h>
#include <string.h>
#include <sys/file.h>
#include <sys/mman.h>
#include <sys/stat.h>
#include <sys/syscall.h>
#include <sys/uio.h>
#include <unistd.h>

enum kind { MEMORY, DEVICE, LATE, PUT, KINDS };

enum sync { AS_ASKED, NONE, ALL };

/* An open file: its path, whether it was made, and whether a write into it was lost and not yet reported. */
struct file {
    char path[PATH_MAX];
    int is_made, is_lost;
};

/* The open files by their numbers, of which only low ones are known; this library's own lie above. */
enum { MOST_FILES = 64, OWN_FILES = 200 };

static struct file files[MOST_FILES];
static uint64_t own_counts[KINDS];
static uint64_t *counts = own_counts;
static uint64_t fails_at[KINDS];
static int device_error = EIO;
static enum sync sync_how = AS_ASKED;
static size_t piece = SIZE_MAX;
static int trace = -1;
static int is_ready, has_failed;

static uint64_t number(const char *name)
{
    const char *text = getenv(name);
    return text ? strtoull(text, NULL, 10) : 0;
}

static int is_word(const char *name, const char *word)
{
    const char *text = getenv(name);
    return text != NULL && strcmp(text, word) == 0;
}

static enum kind kind_asked(void)
{
    static const char *const words[KINDS] = {"memory", "device", "late", "put"};
    for (enum kind kind = 0; kind < KINDS; kind++)
        if (is_word("FAULTS_KIND", words[kind]))
            return kind;
    return DEVICE;
}

/* A file of this library, with a number that the program's files and streams don't come to, also where a stream is closed. */
static int own_file(const char *name, int flags)
{
    const char *path = getenv(name);
    int fd = path ? syscall(SYS_openat, AT_FDCWD, path, flags | O_CLOEXEC, 0666) : -1;
    if (fd < 0)
        return -1;
    int high = syscall(SYS_fcntl, fd, F_DUPFD_CLOEXEC, OWN_FILES);
    syscall(SYS_close, fd);
    return high;
}

__attribute__((constructor)) static void begin(void)
{
    if (getenv("FAULTS_KIND"))
        fails_at[kind_asked()] = number("FAULTS_AT");
    if (number("FAULTS_ERROR"))
        device_error = number("FAULTS_ERROR");
    if (number("FAULTS_PIECE"))
        piece = number("FAULTS_PIECE");
    sync_how = is_word("FAULTS_SYNC", "none") ? NONE : is_word("FAULTS_SYNC", "all") ? ALL : AS_ASKED;
    int fd = own_file("FAULTS_COUNTS", O_RDWR);
    void *shared = fd < 0 ? MAP_FAILED : mmap(NULL, sizeof own_counts, PROT_READ | PROT_WRITE, MAP_SHARED, fd, 0);
    if (shared != MAP_FAILED)
        counts = shared;
    if (fd >= 0)
        syscall(SYS_close, fd);
    trace = own_file("FAULTS_TRACE", O_WRONLY | O_APPEND | O_CREAT);
    strcpy(files[1].path, "<1>");
    strcpy(files[2].path, "<2>");
    is_ready = 1;
}

static void tell(const char *word, const char *path)
{
    if (trace < 0)
        return;
    syscall(SYS_write, trace, word, strlen(word));
    syscall(SYS_write, trace, path, strlen(path));
    syscall(SYS_write, trace, "\n", 1);
}

static void tell_call(const char *word, const char *name, const char *path)
{
    char words[64];
    snprintf(words, sizeof words, "%s %s ", word, name);
    tell(words, path);
}

/* Counts a call, and says whether it is to fail. */
static int is_to_fail(enum kind kind, const char *name, const char *path)
{
    if (!is_ready)
        return 0;
    if (has_failed && kind == DEVICE)
        tell_call("after", name, path);
    counts[kind]++;
    int is_late_put = kind == PUT && fails_at[PUT] && counts[PUT] > fails_at[PUT];
    if (counts[kind] != fails_at[kind] && !is_late_put)
        return 0;
    has_failed = 1;
    tell_call("fail", name, path);
    errno = kind == MEMORY ? ENOMEM : device_error;
    return 1;
}

/* The open file of this number, if it is known. */
static struct file *file_of(int fd)
{
    return fd >= 0 && fd < MOST_FILES && files[fd].path[0] ? &files[fd] : NULL;
}

static const char *path_of(int fd)
{
    struct file *file = file_of(fd);
    return file ? file->path : "";
}

/* Keeps the path of a file that was opened now. */
static int opened(int fd, const char *path, int flags)
{
    if (fd >= 0 && fd < MOST_FILES) {
        files[fd].is_made = (flags & O_CREAT) != 0;
        files[fd].is_lost = 0;
        files[fd].path[0] = 0;
        if (strlen(path) < PATH_MAX)
            strcpy(files[fd].path, path);
    }
    return fd;
}

/* Returns whether a call reports a lost write; only one call does. */
static int is_told(int fd, const char *name)
{
    struct file *file = file_of(fd);
    if (!file || !file->is_lost)
        return 0;
    file->is_lost = 0;
    tell_call("told", name, file->path);
    errno = device_error;
    return 1;
}

/* The C library's own call of this name. */
#define REAL(call) \
    static __typeof__(&call) real; \
    if (!real) \
        real = (__typeof__(&call))dlsym(RTLD_NEXT, #call)

/* The mode of a file that a call may make, which only then is among its arguments. */
#define MODE(flags) \
    va_list rest; \
    va_start(rest, flags); \
    mode_t mode = flags & O_CREAT ? va_arg(rest, mode_t) : 0; \
    va_end(rest)

void *malloc(size_t size)
{
    REAL(malloc);
    return is_to_fail(MEMORY, __func__, "") ? NULL : real(size);
}

/* A block that is made smaller is no call that fails: whoever asks for that goes on with the larger block, and nothing is lost. */
void *realloc(void *old, size_t size)
{
    REAL(realloc);
    if (old != NULL && size < malloc_usable_size(old))
        return real(old, size);
    return is_to_fail(MEMORY, __func__, "") ? NULL : real(old, size);
}

void *aligned_alloc(size_t alignment, size_t size)
{
    REAL(aligned_alloc);
    return is_to_fail(MEMORY, __func__, "") ? NULL : real(alignment, size);
}

int posix_memalign(void **made, size_t alignment, size_t size)
{
    REAL(posix_memalign);
    return is_to_fail(MEMORY, __func__, "") ? ENOMEM : real(made, alignment, size);
}

int open(const char *path, int flags, ...)
{
    REAL(open);
    MODE(flags);
    tell(flags & O_CREAT ? "make " : "look ", path);
    return is_to_fail(DEVICE, __func__, path) ? -1 : opened(real(path, flags, mode), path, flags);
}

int openat(int folder, const char *path, int flags, ...)
{
    REAL(openat);
    MODE(flags);
    tell(flags & O_CREAT ? "make " : "look ", path);
    return is_to_fail(DEVICE, __func__, path) ? -1 : opened(real(folder, path, flags, mode), path, flags);
}

int statx(int folder, const char *restrict path, int flags, unsigned mask, struct statx *restrict found)
{
    REAL(statx);
    const char *whole = path[0] ? path : path_of(folder);
    tell("look ", whole);
    return is_to_fail(DEVICE, __func__, whole) ? -1 : real(folder, path, flags, mask, found);
}

ssize_t readlink(const char *restrict path, char *restrict text, size_t size)
{
    REAL(readlink);
    tell("look ", path);
    return is_to_fail(DEVICE, __func__, path) ? -1 : real(path, text, size);
}

char *realpath(const char *restrict path, char *restrict text)
{
    REAL(realpath);
    tell("look ", path);
    return is_to_fail(DEVICE, __func__, path) ? NULL : real(path, text);
}

ssize_t getdents64(int fd, void *buffer, size_t size)
{
    REAL(getdents64);
    return is_to_fail(DEVICE, __func__, path_of(fd)) ? -1 : real(fd, buffer, size);
}

int mkdir(const char *path, mode_t mode)
{
    REAL(mkdir);
    return is_to_fail(DEVICE, __func__, path) ? -1 : real(path, mode);
}

int mkdirat(int folder, const char *path, mode_t mode)
{
    REAL(mkdirat);
    return is_to_fail(DEVICE, __func__, path) ? -1 : real(folder, path, mode);
}

int rmdir(const char *path)
{
    REAL(rmdir);
    return is_to_fail(DEVICE, __func__, path) ? -1 : real(path);
}

char *getcwd(char *buffer, size_t size)
{
    REAL(getcwd);
    return is_to_fail(DEVICE, __func__, "") ? NULL : real(buffer, size);
}

int flock(int fd, int how)
{
    REAL(flock);
    return is_to_fail(DEVICE, __func__, path_of(fd)) ? -1 : real(fd, how);
}

/* Commands take a number or a pointer, which is as long. */
int fcntl(int fd, int command, ...)
{
    REAL(fcntl);
    va_list rest;
    va_start(rest, command);
    void *argument = va_arg(rest, void *);
    va_end(rest);
    return is_to_fail(DEVICE, __func__, path_of(fd)) ? -1 : real(fd, command, argument);
}

off_t lseek(int fd, off_t at, int from)
{
    REAL(lseek);
    return is_to_fail(DEVICE, __func__, path_of(fd)) ? -1 : real(fd, at, from);
}

int ftruncate(int fd, off_t size)
{
    REAL(ftruncate);
    return is_to_fail(DEVICE, __func__, path_of(fd)) ? -1 : real(fd, size);
}

ssize_t read(int fd, void *buffer, size_t size)
{
    REAL(read);
    return is_to_fail(DEVICE, __func__, path_of(fd)) ? -1 : real(fd, buffer, size < piece ? size : piece);
}

ssize_t pread(int fd, void *buffer, size_t size, off_t at)
{
    REAL(pread);
    return is_to_fail(DEVICE, __func__, path_of(fd)) ? -1 : real(fd, buffer, size < piece ? size : piece, at);
}

/* What is lost leaves bytes of zero in its place. */
ssize_t write(int fd, const void *buffer, size_t size)
{
    REAL(write);
    struct file *file = file_of(fd);
    size = size < piece ? size : piece;
    if (is_to_fail(DEVICE, __func__, path_of(fd)))
        return -1;
    if (file && file->is_made && size > 0 && is_to_fail(PUT, __func__, file->path))
        return -1;
    if (file && file->is_made && size > 0 && is_to_fail(LATE, __func__, file->path)) {
        file->is_lost = 1;
        for (size_t i = 0; i < size; i++)
            if (real(fd, "", 1) != 1)
                return -1;
        return size;
    }
    return real(fd, buffer, size);
}

/* The C library's other name of write. */
ssize_t __write(int fd, const void *buffer, size_t size)
{
    return write(fd, buffer, size);
}

ssize_t pwrite(int fd, const void *buffer, size_t size, off_t at)
{
    REAL(pwrite);
    return is_to_fail(DEVICE, __func__, path_of(fd)) ? -1 : real(fd, buffer, size < piece ? size : piece, at);
}

ssize_t writev(int fd, const struct iovec *parts, int count)
{
    REAL(writev);
    return is_to_fail(DEVICE, __func__, path_of(fd)) ? -1 : real(fd, parts, count);
}

/* The file is closed all the same. */
int close(int fd)
{
    REAL(close);
    int is_failing = is_to_fail(DEVICE, __func__, path_of(fd)) | is_told(fd, __func__), answer = real(fd);
    if (fd >= 0 && fd < MOST_FILES)
        files[fd].path[0] = 0;
    if (is_failing)
        errno = device_error;
    return is_failing ? -1 : answer;
}

/* Whether a sync of this file fails. */
static int fails_to_sync(int fd, const char *name)
{
    tell("sync ", path_of(fd));
    return is_to_fail(DEVICE, name, path_of(fd)) | is_told(fd, name);
}

int fsync(int fd)
{
    REAL(fsync);
    return fails_to_sync(fd, __func__) ? -1 : sync_how == NONE ? 0 : real(fd);
}

int fdatasync(int fd)
{
    REAL(fdatasync);
    return fails_to_sync(fd, __func__) ? -1 : sync_how == NONE ? 0 : real(fd);
}

/* Syncs a file before it is renamed, if FAULTS_SYNC is `all`. */
static void sync_before_rename(const char *path)
{
    if (sync_how != ALL)
        return;
    int fd = syscall(SYS_openat, AT_FDCWD, path, O_RDONLY | O_CLOEXEC);
    if (fd < 0)
        return;
    syscall(SYS_fdatasync, fd);
    syscall(SYS_close, fd);
}

int rename(const char *from, const char *to)
{
    REAL(rename);
    tell("end ", to);
    sync_before_rename(from);
    return is_to_fail(DEVICE, __func__, to) ? -1 : real(from, to);
}

int renameat(int from_folder, const char *from, int to_folder, const char *to)
{
    REAL(renameat);
    tell("end ", to);
    return is_to_fail(DEVICE, __func__, to) ? -1 : real(from_folder, from, to_folder, to);
}

int unlink(const char *path)
{
    REAL(unlink);
    return is_to_fail(DEVICE, __func__, path) ? -1 : real(path);
}

int unlinkat(int folder, const char *path, int flags)
{
    REAL(unlinkat);
    return is_to_fail(DEVICE, __func__, path) ? -1 : real(folder, path, flags);
}
