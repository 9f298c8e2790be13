/* Who runs the program, what it inherits, and calls on descriptors and names that few programs make: a line for each,
 * as the kernel has it. */
#define _GNU_SOURCE
#include "said.h"

#include <dirent.h>
#include <fcntl.h>
#include <limits.h>
#include <poll.h>
#include <stdbool.h>
#include <stdlib.h>
#include <sys/socket.h>
#include <sys/stat.h>
#include <sys/time.h>
#include <sys/uio.h>
#include <termios.h>
#include <unistd.h>

int __getdomainname_chk(char *, size_t, size_t), __gethostname_chk(char *, size_t, size_t);
int __getgroups_chk(int, gid_t *, size_t), __ttyname_r_chk(int, char *, size_t, size_t);
int __ppoll_chk(struct pollfd *, nfds_t, const struct timespec *, const sigset_t *, size_t);
char *__getwd_chk(char *, size_t);

static char text[PATH_MAX];

static void numbers(void) {
  uid_t u[3];
  gid_t g[3], groups[1000];
  SAY(getuid());
  SAY(geteuid());
  SAY(getgid());
  SAY(getegid());
  SAY(getresuid(u, u + 1, u + 2));
  SAY(u[0] == getuid() && u[1] == geteuid() && u[2] == u[1]);
  SAY(getresgid(g, g + 1, g + 2));
  SAY(g[0] == getgid() && g[1] == getegid() && g[2] == g[1]);
  SAY(getgroups(0, NULL) == getgroups(1000, groups));
  SAY(__getgroups_chk(1000, groups, sizeof groups) == getgroups(0, NULL));
  SAY(group_member(getegid()));
  SAY(group_member((gid_t)77777));
  SAY(getpgrp() == getpgid(0));
  SAY(getpgid(getpid()) == getpgrp());
  SAY(getsid(0) == getsid(getpid()));
  SAY(getpgid(1 << 22));
  SAY(setpgid(0, 0) + 1);
  SAY(getpgrp() == getpid());
  SAY(setpgrp());
  SAY(setpgid(1 << 22, 0));
  SAY(setsid());
  umask(027);
  SAY(umask(022));
  SAY(getdtablesize() > 20);
  SAY(getdomainname(text, sizeof text));
  printf("%s\n", text);
  SAY(__getdomainname_chk(text, sizeof text, sizeof text));
  SAY(__gethostname_chk(text, sizeof text, sizeof text));
  printf("%s\n", text);
}

static void limits(int f, const int *p) {
  SAY(pathconf(".", _PC_NAME_MAX));
  SAY(pathconf("none", _PC_NAME_MAX));
  SAY(fpathconf(f, _PC_PATH_MAX));
  SAY(fpathconf(p[0], _PC_PIPE_BUF));
  SAY(fpathconf(20, _PC_NAME_MAX));
  errno = 0;
  SAY(fpathconf(f, _PC_SYNC_IO));
  SAY(fpathconf(f, 999));
}

static void terminals(int f) {
  struct termios t;
  TELL(ttyname_r(f, text, sizeof text));
  TELL(__ttyname_r_chk(20, text, sizeof text, sizeof text));
  SAY(ttyname(f) ? 0 : -1);
  SAY(tcgetpgrp(f));
  SAY(tcgetattr(f, &t));
  SAY(tcgetattr(20, &t));
}

static void open_files(int f, int g, const int *p) {
  struct iovec parts[2] = {{text, 3}, {text + 10, 4}};
  struct timespec soon = {0, 1000};
  strcpy(text, "abcdefghijklmnop");
  SAY(lockf(g, F_TLOCK, 5));
  SAY(lockf(g, F_TEST, 5));
  SAY(lockf64(g, F_LOCK, 9));
  SAY(lockf(g, F_ULOCK, 0));
  SAY(lockf(g, 99, 0));
  SAY(lockf(20, F_TEST, 0));
  SAY(sync_file_range(g, 0, 0, SYNC_FILE_RANGE_WRITE));
  SAY(isfdtype(g, S_IFREG));
  SAY(isfdtype(p[0], S_IFREG));
  SAY(isfdtype(20, S_IFREG));
  SAY(pwritev2(g, parts, 2, 4, 0));
  SAY(pwritev64v2(g, parts, 1, -1, 0));
  SAY(preadv2(f, parts, 2, 4, 0));
  SAY(preadv64v2(f, parts, 2, -1, 0));
  SAY(lseek(f, 0, SEEK_CUR));
  SAY(preadv2(20, parts, 2, 4, 0));
  SAY(__ppoll_chk(&(struct pollfd){f, POLLIN, 0}, 1, &soon, NULL, sizeof(struct pollfd)));
}

static int dots(const struct dirent *it) { return it->d_name[0] != '.'; }
static int dots64(const struct dirent64 *it) { return it->d_name[0] != '.'; }
static void names(void) {
  struct timeval times[2] = {{12345, 0}, {12345, 0}};
  struct dirent **list;
  struct dirent64 **list64;
  struct stat s;
  SAY(mkdir("below", 0700));
  int d = open("below", O_RDONLY | O_DIRECTORY);
  SAY(mkfifoat(d, "fifo", 0600));
  SAY(mkfifoat(d, "fifo", 0600));
  SAY(mknodat(d, "node", S_IFIFO | 0640, 0));
  SAY(fstatat(d, "node", &s, 0) + (long)s.st_mode);
  SAY(lchmod("below/node", 0600));
  SAY(symlink("node", "below/link"));
  SAY(lchmod("below/link", 0600));
  SAY(lchmod("below/none", 0600));
  SAY(fstatat(d, "node", &s, 0) + (long)s.st_mode);
  SAY(futimesat(d, "node", times));
  SAY(fstatat(d, "node", &s, 0) + s.st_mtim.tv_sec);
  int n = scandirat(AT_FDCWD, "below", &list, dots, alphasort), m = scandirat64(d, ".", &list64, dots64, alphasort64);
  for (int i = 0; i < n && n == m; i++) printf("%s %s\n", list[i]->d_name, list64[i]->d_name);
  SAY(scandirat(d, "none", &list, dots, alphasort));
  SAY(unlinkat(d, "fifo", 0) + unlinkat(d, "node", 0) + unlinkat(d, "link", 0));
  SAY(rmdir("below"));
#pragma GCC diagnostic push
#pragma GCC diagnostic ignored "-Wdeprecated-declarations"
  bool both = getwd(text) && access(text, X_OK) == 0;
#pragma GCC diagnostic pop
  SAY(both);
  SAY(__getwd_chk(text, sizeof text) == text);
}

int main(void) {
  int p[2];
  umask(022);
  if (pipe(p)) return 1;
  int g = open("made.txt", O_RDWR | O_CREAT, 0644), f = open("input.txt", O_RDONLY);
  numbers();
  limits(f, p);
  terminals(f);
  open_files(f, g, p);
  names();
  SAY(unlink("made.txt"));
  return 0;
}
