/* children N: starts a program in one of fourteen ways, goes on as another process, or ends at once. The status is 3
 * where that was refused. */
#define _GNU_SOURCE
#include <errno.h>
#include <fcntl.h>
#include <spawn.h>
#include <stdlib.h>
#include <sys/wait.h>
#include <unistd.h>

static const char *const path = "/usr/bin/touch";
static char *const words[] = {"touch", "made.txt", NULL};

/* The child, -1 with errno, or 0 in the child. */
static pid_t starts(int which) {
  pid_t child = -1;
  switch (which) {
  case 0: return fork();
  case 1: return _Fork();
  case 2: errno = posix_spawn(&child, path, NULL, NULL, words, environ); return errno ? -1 : child;
  case 3: errno = posix_spawnp(&child, "touch", NULL, NULL, words, environ); return errno ? -1 : child;
  case 4: return execv(path, words);
  case 5: return execve(path, words, environ);
  case 6: return execvp("touch", words);
  case 7: return execvpe("touch", words, environ);
  case 8: return fexecve((int)syscall(257, AT_FDCWD, path, O_RDONLY | O_CLOEXEC, 0), words, environ);
  case 11: return execl(path, "touch", "made.txt", NULL);
  case 12: return execlp("touch", "touch", "made.txt", NULL);
  case 13: return execle(path, "touch", "made.txt", NULL, environ);
  case 14: return execveat(AT_FDCWD, path, words, environ, 0);
  case 15: return daemon(1, 1);
  default: _Exit(4);
  }
}

int main(int count, char **given) {
  int which = count > 1 ? atoi(given[1]) : 0, status = 0;
  pid_t child = which == 9 ? vfork() : starts(which == 10 ? 9 : which);
  if (child == 0) {
    execv(path, words);
    _exit(1);
  }
  if (child < 0) return errno == ENOSYS ? 3 : 5;
  waitpid(child, &status, 0);
  return status >> 8;
}
