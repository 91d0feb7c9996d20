/* limit LIST: makes the system calls of a list, and takes 5 ns of the processor for each byte that they read or write. A line of LIST is

     look PATH          ask whether it is there
     read PATH          read the file whole
     make PATH          make the folder
     write SIZE PATH    write so many bytes to a file next to it, and rename that file to it

   Ends with 0 where each of them was done, whether or not what it looked at is there; else says which was not, and ends with 1. */
#define _GNU_SOURCE
#include <fcntl.h>
#include <stdio.h>
#include <stdlib.h>
#include <string.h>
#include <sys/stat.h>
#include <time.h>
#include <unistd.h>

enum { NS_A_BYTE = 5 };

static char piece[1 << 16];
static long long bytes;

static void end_at(const char *path) {
  perror(path);
  exit(1);
}

static void look(const char *path) {
  struct stat found;
  (void)stat(path, &found);
}

static void read_whole(const char *path) {
  int file = open(path, O_RDONLY | O_CLOEXEC);
  ssize_t got = -1;
  if (file >= 0)
    while ((got = read(file, piece, sizeof piece)) > 0) bytes += got;
  if (got < 0 || close(file) != 0) end_at(path);
}

static void write_whole(long long left, const char *path) {
  char beside[4096];
  bytes += left;
  if (snprintf(beside, sizeof beside, "%s|new", path) >= (int)sizeof beside) end_at(path);
  int file = open(beside, O_WRONLY | O_CREAT | O_EXCL | O_CLOEXEC, 0666);
  if (file < 0) end_at(beside);
  while (left > 0) {
    ssize_t put = write(file, piece, left < (long long)sizeof piece ? (size_t)left : sizeof piece);
    if (put < 0) end_at(beside);
    left -= put;
  }
  if (close(file) != 0 || rename(beside, path) != 0) end_at(path);
}

static void carry_out(char *line) {
  char *path = strchr(line, ' ');
  if (path == NULL) end_at(line);
  path++;
  switch (*line) {
  case 'l': look(path); break;
  case 'r': read_whole(path); break;
  case 'm': if (mkdir(path, 0777) != 0) end_at(path); break;
  case 'w': {
    long long size = strtoll(path, &path, 10);
    write_whole(size, path + 1);
    break;
  }
  default: end_at(line);
  }
}

static char *text_of(const char *path) {
  struct stat found;
  int file = open(path, O_RDONLY | O_CLOEXEC);
  if (file < 0 || fstat(file, &found) != 0) end_at(path);
  char *text = malloc((size_t)found.st_size + 1);
  if (text == NULL || read(file, text, (size_t)found.st_size) != found.st_size) end_at(path);
  text[found.st_size] = 0;
  return text;
}

static long long processor_ns(void) {
  struct timespec now;
  clock_gettime(CLOCK_PROCESS_CPUTIME_ID, &now);
  return now.tv_sec * 1000000000LL + now.tv_nsec;
}

int main(int count, char **words) {
  if (count != 2) {
    fputs("limit LIST\n", stderr);
    return 1;
  }
  for (char *line = text_of(words[1]), *end; (end = strchr(line, '\n')) != NULL; line = end + 1) {
    *end = 0;
    carry_out(line);
  }
  for (long long end = processor_ns() + bytes * NS_A_BYTE; processor_ns() < end;) {}
  return 0;
}
