/* start FIGURES COMMAND..: runs a command, and writes into the file FIGURES the microseconds of the processor that it took and the most
   KiB of memory that it had. Ends with the command's status. This process is small: the memory of the one that starts a command counts as
   the command's. */
#define _DEFAULT_SOURCE
#include <stdio.h>
#include <sys/resource.h>
#include <sys/wait.h>
#include <unistd.h>

enum { NOT_RUN = 127, BY_SIGNAL = 128 };

static long long microseconds(struct timeval time) {
  return time.tv_sec * 1000000LL + time.tv_usec;
}

int main(int count, char **words) {
  struct rusage used;
  int status;
  if (count < 3) return NOT_RUN;
  pid_t child = fork();
  if (child == 0) {
    execvp(words[2], words + 2);
    perror(words[2]);
    _exit(NOT_RUN);
  }
  if (child < 0 || wait4(child, &status, 0, &used) != child) return NOT_RUN;
  FILE *figures = fopen(words[1], "w");
  if (figures == NULL) return NOT_RUN;
  fprintf(figures, "%lld %ld\n", microseconds(used.ru_utime) + microseconds(used.ru_stime), used.ru_maxrss);
  if (fclose(figures) != 0) return NOT_RUN;
  return WIFEXITED(status) ? WEXITSTATUS(status) : BY_SIGNAL + WTERMSIG(status);
}
