/* chance SEED COUNT: calls by chance on files and pipes, each with its result, its error and its bytes. */
#define _GNU_SOURCE
#include <errno.h>
#include <fcntl.h>
#include <poll.h>
#include <signal.h>
#include <stdint.h>
#include <stdio.h>
#include <stdlib.h>
#include <string.h>
#include <sys/file.h>
#include <sys/stat.h>
#include <sys/uio.h>
#include <unistd.h>

static uint64_t state;
static unsigned by(unsigned bound) {
  uint64_t x = state += 0x9e3779b97f4a7c15u;
  x = (x ^ (x >> 30)) * 0xbf58476d1ce4e5b9u;
  x = (x ^ (x >> 27)) * 0x94d049bb133111ebu;
  return (unsigned)((x ^ (x >> 31)) % bound);
}
static char bytes[700];
static const char *const names[] = {"a", "b", "folder", "folder/c", "none/d", "a/e", "link", ""};
static const char *name(void) { return names[by(8)]; }
static int fd(void) { return by(20) ? 3 + (int)by(14) : (int)by(3) - 1 + (int)by(40); }
static int not_standard(void) {
  int it = fd();
  return it >= 0 && it < 3 ? 17 : it;
}

/* The result of a call, with the bytes that it left. */
static void told_of(const char *call, int at, long result, size_t count) {
  uint64_t sum = 7;
  for (size_t i = 0; i < count && i < sizeof bytes; i++) sum = sum * 31 + (unsigned char)bytes[i];
  printf("%s %d: %ld %s %lx\n", call, at, result, result < 0 ? strerrorname_np(errno) : "-", result < 0 ? 0 : sum);
}
#define TOLD(call, at, result) told_of(call, at, result, 0)
static size_t fill(void) {
  size_t count = by(10) ? by(60) : by(sizeof bytes);
  for (size_t i = 0; i < count; i++) bytes[i] = (char)by(256);
  return count;
}

static void opens(void) {
  static const int hows[] = {O_RDONLY, O_WRONLY, O_RDWR, O_RDWR | O_CREAT, O_WRONLY | O_CREAT | O_TRUNC,
                             O_RDWR | O_CREAT | O_EXCL, O_WRONLY | O_APPEND | O_CREAT, O_RDONLY | O_DIRECTORY};
  const char *at = name();
  TOLD(at, 0, open(at, hows[by(8)] | (by(2) ? O_CLOEXEC : 0), 0640));
}
static void pipes(void) {
  int two[2] = {-1, -1};
  long r = pipe2(two, O_NONBLOCK | (by(2) ? O_CLOEXEC : 0));
  TOLD("pipe", two[0] * 100 + two[1], r);
}
static void moves(void) {
  int at = not_standard();
  size_t count = fill();
  struct iovec parts[2] = {{bytes, count / 2}, {bytes + count / 2, count - count / 2}};
  switch (by(8)) {
  case 0: case 1: TOLD("write", at, write(at, bytes, count)); break;
  case 2: TOLD("pwrite", at, pwrite(at, bytes, count, by(300))); break;
  case 3: TOLD("writev", at, writev(at, parts, 2)); break;
  case 4: told_of("pread", at, pread(at, bytes, count, by(300)), count); break;
  case 5: told_of("readv", at, readv(at, parts, 2), count); break;
  default: told_of("read", at, read(at, bytes, count), count); break;
  }
}
static void numbers(void) {
  int at = not_standard(), to = 3 + (int)by(14);
  switch (by(7)) {
  case 0: TOLD("dup", at, dup(at)); break;
  case 1: TOLD("dup2", at, dup2(at, to)); break;
  case 2: TOLD("dup3", at, dup3(at, to, by(2) ? O_CLOEXEC : 0)); break;
  case 3: TOLD("dupfd", at, fcntl(at, F_DUPFD, to)); break;
  case 4: TOLD("getfd", at, fcntl(at, F_GETFD)); break;
  case 5: TOLD("setfd", at, fcntl(at, F_SETFD, by(2))); break;
  default: TOLD("getfl", at, fcntl(at, F_GETFL) & (O_ACCMODE | O_APPEND | O_NONBLOCK)); break;
  }
}
static void places(void) {
  int at = not_standard();
  struct stat s;
  long r;
  struct pollfd p = {at, POLLIN | POLLOUT, 0};
  switch (by(6)) {
  case 0: case 1: TOLD("lseek", at, lseek(at, (long)by(600) - 100, (int)by(3))); break;
  case 2: TOLD("ftruncate", at, ftruncate(at, by(500))); break;
  case 3: TOLD("flock", at, flock(at, (by(2) ? LOCK_SH : LOCK_UN) | LOCK_NB)); break;
  case 4:
    r = poll(&p, 1, 0);
    printf("poll %d: %ld %x\n", at, r, r > 0 ? p.revents : 0);
    break;
  default:
    r = fstat(at, &s);
    TOLD("fstat", at, r ? r : S_ISREG(s.st_mode) ? (long)(s.st_size * 10 + (long)s.st_nlink) : S_ISDIR(s.st_mode));
  }
}
static void paths(void) {
  const char *one = name(), *other = name();
  struct stat s;
  long r;
  switch (by(9)) {
  case 0: TOLD("unlink", 0, unlink(one)); break;
  case 1: TOLD("rename", 0, rename(one, other)); break;
  case 2: TOLD("link", 0, link(one, other)); break;
  case 3: TOLD("mkdir", 0, mkdir(one, 0700)); break;
  case 4: TOLD("rmdir", 0, rmdir(one)); break;
  case 5: TOLD("symlink", 0, symlink(one, other)); break;
  case 6: TOLD("access", 0, access(one, (int)by(8))); break;
  case 7:
    r = readlink(one, bytes, sizeof bytes);
    told_of("readlink", 0, r, r > 0 ? (size_t)r : 0);
    break;
  default:
    r = lstat(one, &s);
    TOLD("lstat", 0, r ? r : (long)(s.st_mode & 0170777) * 100 + (S_ISREG(s.st_mode) ? (long)s.st_size : 0));
  }
}

int main(int count, char **words) {
  state = count > 1 ? strtoull(words[1], NULL, 10) : 1;
  int left = count > 2 ? atoi(words[2]) : 300;
  signal(SIGPIPE, SIG_IGN);
  closefrom(3);
  while (left--) {
    unsigned what = by(20);
    int at = not_standard(), lowest = dup(2);
    if (lowest >= 0) close(lowest);
    if (lowest < 0 || lowest > 11) what = 19, at = 3 + (int)by(28);
    if (what < 3) opens();
    else if (what < 5) pipes();
    else if (what < 11) moves();
    else if (what < 13) numbers();
    else if (what < 15) places();
    else if (what < 18) paths();
    else TOLD("close", at, close(at));
  }
  return 0;
}
