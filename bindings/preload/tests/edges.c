/* Calls that fail, and those at the edge of what is allowed: a line for each, as the kernel has it. */
#define _GNU_SOURCE
#include "said.h"

#include <dirent.h>
#include <fcntl.h>
#include <limits.h>
#include <poll.h>
#include <signal.h>
#include <stdlib.h>
#include <sys/mman.h>
#include <sys/random.h>
#include <sys/select.h>
#include <sys/sendfile.h>
#include <sys/socket.h>
#include <sys/stat.h>
#include <sys/statvfs.h>
#include <time.h>
#include <unistd.h>

static char bytes[PATH_MAX];
static const char *volatile nothing;

static void descriptors(int f, int d, const int *p) {
  SAY(read(f, bytes, 0));
  SAY(write(p[1], "", 0));
  SAY(write(f, "x", 1));
  SAY(write(p[0], "x", 1));
  SAY(read(p[1], bytes, 1));
  SAY(read(d, bytes, 1));
  SAY(pread(p[0], bytes, 1, 0));
  SAY(pwrite(p[1], bytes, 1, 0));
  SAY(lseek(p[0], 0, SEEK_CUR));
  SAY(lseek(f, 0, 9));
  SAY(ftruncate(f, 0));
  SAY(ftruncate(p[0], 0));
  SAY(dup(-1));
  SAY(dup2(f, -1));
  SAY(dup2(-1, f));
  SAY(dup3(f, 20, O_APPEND));
  SAY(fcntl(-1, F_GETFD));
  SAY(fcntl(20, F_GETFL));
  SAY(fcntl(f, F_DUPFD, -1));
  SAY(fcntl(f, 9999));
  SAY(pipe2((int[2]){0}, O_APPEND));
  SAY(close_range(7, 5, 0));
}

static void open_files(int f, const int *p) {
  struct stat s;
  fd_set in;
  SAY(fstat(20, &s));
  SAY(fsync(20));
  SAY(fsync(p[0]));
  SAY(isatty(20));
  SAY(isatty(f));
  said("errno", -1);
  SAY(fchdir(f));
  SAY(fchdir(20));
  SAY(sendfile(20, f, NULL, 1));
  SAY(sendfile(p[1], 20, NULL, 1));
  SAY(poll(NULL, 0, 0));
  SAY(poll(&(struct pollfd){-1, POLLIN, 7}, 1, 0));
  FD_ZERO(&in);
  FD_SET(20, &in);
  SAY(select(21, &in, NULL, NULL, NULL));
  SAY(mmap(NULL, 0, PROT_READ, MAP_PRIVATE, f, 0) == MAP_FAILED ? -1 : 0);
  SAY(mmap(NULL, 10, PROT_READ, MAP_PRIVATE, f, 1) == MAP_FAILED ? -1 : 0);
  SAY(mmap(NULL, 10, PROT_READ, MAP_PRIVATE, p[0], 0) == MAP_FAILED ? -1 : 0);
}

static void sockets(int f) {
  int value = 0;
  socklen_t length = sizeof value;
  struct sockaddr to = {.sa_family = AF_INET};
  SAY(listen(f, 1));
  SAY(listen(20, 1));
  SAY(accept(f, NULL, NULL));
  SAY(accept(20, NULL, NULL));
  SAY(bind(f, &to, sizeof to));
  SAY(connect(20, &to, sizeof to));
  SAY(connect(f, &to, sizeof to));
  SAY(recv(f, bytes, 1, 0));
  SAY(send(20, bytes, 1, 0));
  SAY(shutdown(f, SHUT_RD));
  SAY(getsockopt(f, SOL_SOCKET, SO_TYPE, &value, &length));
  SAY(setsockopt(20, SOL_SOCKET, SO_TYPE, &value, length));
  SAY(getsockname(f, &to, &length));
}

static void opening(int d) {
  SAY(open(nothing, O_RDONLY));
  SAY(open("", O_RDONLY));
  SAY(open("edge", O_WRONLY));
  SAY(open("edge", O_RDONLY | O_CREAT, 0600));
  SAY(openat(20, "input.txt", O_RDONLY));
  SAY(openat(d, "none", O_RDONLY));
  SAY(open("edge/dangling", O_WRONLY | O_CREAT | O_EXCL, 0600));
  SAY(open("edge/loop", O_RDONLY));
  SAY(open("edge/dangling", O_RDONLY | O_NOFOLLOW));
}

static void names(int d) {
  struct stat s;
  SAY(stat("", &s));
  SAY(stat("edge/loop", &s));
  SAY(stat("input.txt/", &s));
  SAY(lstat("edge/loop", &s));
  SAY(access("input.txt", 99));
  SAY(chdir("input.txt"));
  SAY(mkdir("", 0700));
  SAY(mkdir("none/below", 0700));
  SAY(rmdir("edge"));
  SAY(rmdir("input.txt"));
  SAY(unlink("edge"));
  SAY(unlink("none"));
  SAY(unlinkat(d, "edge", AT_REMOVEDIR));
  SAY(unlinkat(d, "edge", 999));
  SAY(rename("edge", "input.txt"));
  SAY(rename("edge", "edge/below"));
  SAY(link("edge", "other"));
  SAY(symlink("", "edge/empty"));
  SAY(symlink("x", "edge/loop"));
  SAY(truncate("edge", 0));
  SAY(truncate("input.txt", -1));
  SAY(readlink("input.txt", bytes, 10));
  SAY(readlink("none", bytes, 10));
}

static void paths(void) {
  struct timespec bad[2] = {{0, -5}, {0, 0}};
  char name[] = "short", full[] = "none/new-XXXXXX";
  SAY(utimensat(AT_FDCWD, "input.txt", bad, 0));
  SAY(realpath("", bytes) ? 0 : -1);
  SAY(realpath("edge/loop", bytes) ? 0 : -1);
  SAY(realpath("input.txt/", bytes) ? 0 : -1);
  SAY(realpath("edge/dangling", bytes) ? 0 : -1);
  SAY(getcwd(bytes, 2) ? 0 : -1);
  SAY(getcwd(bytes, 0) ? 0 : -1);
  SAY(mkstemp(name));
  SAY(mkstemp(full));
  SAY(opendir("") ? 0 : -1);
  SAY(opendir("none") ? 0 : -1);
  SAY(fdopendir(20) ? 0 : -1);
  SAY(statvfs("none", &(struct statvfs){0}));
}

static void others(int f) {
  SAY(fdopen(f, "q") ? 0 : -1);
  SAY(fdopen(20, "r") ? 0 : -1);
  SAY(fopen("input.txt", "q") ? 0 : -1);
  SAY(fopen("input.txt", "wx") ? 0 : -1);
  SAY(fopen("edge", "w") ? 0 : -1);
  SAY(nanosleep(&(struct timespec){0, -1}, NULL));
  SAY(nanosleep(&(struct timespec){-1, 0}, NULL));
  TELL(clock_nanosleep(CLOCK_MONOTONIC, 0, &(struct timespec){0, 1000000000}, NULL));
  SAY(clock_gettime(9999, &(struct timespec){0, 0}));
  SAY(getrandom(bytes, 1, 999));
  SAY(getrandom(bytes, 0, 0));
  SAY(getentropy(bytes, 257));
  SAY(kill(getpid(), 999));
  SAY(kill(getpid(), 0));
  SAY(raise(999));
  SAY(lseek(f, 0, SEEK_CUR));
}

int main(void) {
  int p[2];
  umask(022);
  if (mkdir("edge", 0700) || symlink("none", "edge/dangling") || symlink("loop", "edge/loop") || pipe(p)) return 1;
  int f = open("input.txt", O_RDONLY), d = open(".", O_RDONLY | O_DIRECTORY);
  descriptors(f, d, p);
  open_files(f, p);
  sockets(f);
  opening(d);
  names(d);
  paths();
  others(f);
  return system("rm -r edge") != 0;
}
