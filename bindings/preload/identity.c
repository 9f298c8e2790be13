/* Who runs the program, and what its process inherits: outcomes. What the process changes of itself alone is changed in
 * a rerun too. */
#define _GNU_SOURCE
#include "preload.h"

#include <fcntl.h>
#include <limits.h>
#include <stdlib.h>
#include <string.h>
#include <sys/ioctl.h>
#include <sys/stat.h>
#include <sys/syscall.h>
#include <sys/utsname.h>
#include <termios.h>
#include <unistd.h>

/* A number that the kernel keeps, of a process that is given or of this one. */
static int number_of(long which, int64_t given) {
  return (int)ask(&(question){.what = ASK_NUMBER, .a = which, .b = given}, NULL, NULL);
}
#define OWN_NUMBER(type, name, which)            \
  EXPORT type name(void) {                       \
    NEXT(name);                                  \
    OFF(next());                                 \
    return (type)number_of(which, 0);            \
  }
OWN_NUMBER(uid_t, getuid, SYS_getuid)
OWN_NUMBER(uid_t, geteuid, SYS_geteuid)
OWN_NUMBER(gid_t, getgid, SYS_getgid)
OWN_NUMBER(gid_t, getegid, SYS_getegid)
OWN_NUMBER(pid_t, getpgrp, SYS_getpgrp)
OWN_NUMBER(pid_t, setsid, SYS_setsid)
#define NUMBER_OF(name, which)                   \
  EXPORT pid_t name(pid_t of) {                  \
    NEXT(name);                                  \
    OFF(next(of));                               \
    return number_of(which, of);                 \
  }
NUMBER_OF(getpgid, SYS_getpgid)
NUMBER_OF(getsid, SYS_getsid)
EXPORT int setpgid(pid_t of, pid_t group) {
  NEXT(setpgid);
  OFF(next(of, group));
  return number_of(SYS_setpgid, (int64_t)of | (int64_t)group << 32);
}
EXPORT int setpgrp(void) { return setpgid(0, 0); }
EXPORT mode_t umask(mode_t mask) {
  NEXT(umask);
  OFF(next(mask));
  if (run.replays) (void)next(mask); /* of what is made below --pass */
  return (mode_t)number_of(SYS_umask, mask);
}

/* Several numbers. */
static int numbers_of(long which, int64_t given, void *to, size_t count) {
  return (int)ask(&(question){.what = ASK_NUMBERS, .a = which, .b = given, .room = count * 4}, to, NULL);
}
#define THREE(type, name, which)                          \
  EXPORT int name(type *real, type *effective, type *saved) { \
    NEXT(name);                                           \
    OFF(next(real, effective, saved));                    \
    type all[3];                                          \
    if (numbers_of(which, 0, all, 3)) return -1;          \
    *real = all[0];                                       \
    *effective = all[1];                                  \
    *saved = all[2];                                      \
    return 0;                                             \
  }
THREE(uid_t, getresuid, SYS_getresuid)
THREE(gid_t, getresgid, SYS_getresgid)
enum { GROUPS = PIECE / sizeof(gid_t) };
EXPORT int getgroups(int room, gid_t *to) {
  NEXT(getgroups);
  OFF(next(room, to));
  gid_t all[room > 0 && room < GROUPS ? room : GROUPS];
  int count = numbers_of(SYS_getgroups, room < GROUPS ? room : GROUPS, all, room > 0 ? sizeof all / sizeof *all : 0);
  if (room > 0 && count > 0) memcpy(to, all, (size_t)count * sizeof *all);
  return count;
}
EXPORT int __getgroups_chk(int room, gid_t *to, size_t has) {
  if (room > 0 && (size_t)room * sizeof *to > has) abort();
  return getgroups(room, to);
}
EXPORT int group_member(gid_t group) {
  NEXT(group_member);
  OFF(next(group));
  gid_t all[1024];
  int count = getgroups(1024, all);
  for (int i = 0; i < count; i++)
    if (all[i] == group) return 1;
  return 0;
}

/* The limit on descriptors is that of the machine's numbers. */
EXPORT int getdtablesize(void) {
  NEXT(getdtablesize);
  OFF(next());
  return ORACLE;
}

/* The limits of names and of what is open. */
static long limit(const question *q) { return (long)ask(q, NULL, NULL); }
static long limit_in_memory(int what) { return what == _PC_NAME_MAX ? 14 : (errno = EINVAL, -1); }
EXPORT long pathconf(const char *path, int what) {
  NEXT(pathconf);
  OFF(next(path, what));
  if (!asked_of_us(path)) return next(path, what);
  if (in_memory(path)) return limit_in_memory(what);
  return limit(&(question){.what = ASK_PATHCONF, .at = -1, .path = path, .a = what});
}
EXPORT long fpathconf(int fd, int what) {
  NEXT(fpathconf);
  OFF(next(fd, what));
  if (!is_ours(fd)) return next(fd, what);
  const opened_file *f = opened_at(fd);
  if (f->kind == NONE) return errno = EBADF, -1;
  if (f->kind == PIPE || f->kind == SOCKET) return what == _PC_PIPE_BUF ? PIPE_BUF : (errno = EINVAL, -1);
  if (f->kind == MEMORY) return limit_in_memory(what);
  return limit(&(question){.what = ASK_PATHCONF, .at = f->real, .a = what});
}

/* Terminals. */
EXPORT int ttyname_r(int fd, char *to, size_t room) {
  NEXT(ttyname_r);
  OFF(next(fd, to, room));
  if (!is_ours(fd)) return next(fd, to, room);
  char path[PATH_MAX];
  size_t length = 0;
  if (!isatty(fd)) return errno;
  if (ask(&(question){.what = ASK_READLINK, .at = real_of(fd), .a = 1, .room = sizeof path}, path, &length) < 0)
    return errno;
  if (length >= room) return errno = ERANGE;
  memcpy(to, path, length);
  to[length] = 0;
  return 0;
}
EXPORT char *ttyname(int fd) {
  static char name[PATH_MAX];
  return ttyname_r(fd, name, sizeof name) ? NULL : name;
}
EXPORT int __ttyname_r_chk(int fd, char *to, size_t room, size_t has) {
  if (room > has) abort();
  return ttyname_r(fd, to, room);
}
EXPORT pid_t tcgetpgrp(int fd) {
  int group = 0;
  return ioctl(fd, TIOCGPGRP, &group) ? -1 : group;
}
/* The settings of a terminal as the kernel has them. */
typedef struct { unsigned input, output, control, local; unsigned char line, characters[19]; } kernel_terminal;
EXPORT int tcgetattr(int fd, struct termios *to) {
  kernel_terminal k;
  if (ioctl(fd, TCGETS, &k)) return -1;
  memset(to, 0, sizeof *to);
  to->c_iflag = k.input;
  to->c_oflag = k.output;
  to->c_cflag = k.control;
  to->c_lflag = k.local;
  to->c_line = k.line;
  to->c_ispeed = to->c_ospeed = k.control & (CBAUD | CBAUDEX);
  memcpy(to->c_cc, k.characters, sizeof k.characters);
  return 0;
}

EXPORT int getdomainname(char *to, size_t room) {
  NEXT(getdomainname);
  OFF(next(to, room));
  struct utsname u;
  if (uname(&u)) return -1;
  size_t length = strlen(u.domainname) + 1;
  memcpy(to, u.domainname, length < room ? length : room);
  return 0;
}
EXPORT int __getdomainname_chk(char *to, size_t room, size_t has) {
  if (room > has) abort();
  return getdomainname(to, room);
}
EXPORT int __gethostname_chk(char *to, size_t room, size_t has) {
  if (room > has) abort();
  return gethostname(to, room);
}
