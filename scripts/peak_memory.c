// Runs a program, and writes its exit status and the most memory that it took, in bytes, into a file:
//
//   peak_memory FILE PROGRAM [ARGUMENT..]
//
// Until a program is begun, the memory of the process that begins it counts as its own. So this is a small program,
// linked statically, which takes next to nothing itself.
#define _DEFAULT_SOURCE
#include <stdio.h>
#include <stdlib.h>
#include <sys/resource.h>
#include <sys/wait.h>
#include <unistd.h>

int main(int count, char **words) {
  if (count < 3)
    return 2;
  pid_t child = fork();
  if (child == 0) {
    execv(words[2], words + 2);
    _exit(127);
  }
  int status;
  struct rusage usage;
  if (child < 0 || wait4(child, &status, 0, &usage) != child)
    return 2;
  FILE *file = fopen(words[1], "w");
  if (!file)
    return 2;
  int ended = WIFEXITED(status) ? WEXITSTATUS(status) : -WTERMSIG(status);
  fprintf(file, "%d %ld\n", ended, 1024 * usage.ru_maxrss);
  return fclose(file) ? 2 : 0;
}
