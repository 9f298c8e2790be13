/* The outside: doors by detio_host.c, and the oracle, a door whose bytes answer questions. */
#define _GNU_SOURCE
#include "preload.h"

#include "detio_host.h"

#include <fcntl.h>
#include <poll.h>
#include <sched.h>
#include <stdio.h>
#include <stdlib.h>
#include <string.h>
#include <sys/file.h>
#include <sys/ioctl.h>
#include <sys/resource.h>
#include <sys/socket.h>
#include <sys/stat.h>
#include <sys/syscall.h>
#include <sys/times.h>
#include <sys/vfs.h>
#include <unistd.h>

/* The door of the oracle: no descriptor of the host has this number. */
#define ORACLE_DOOR (1ull << 20)

uint64_t outsides;

void digest(const void *bytes, size_t length) {
  const uint8_t *at = bytes;
  uint64_t x = slots[me].digest, word;
  for (; length >= 8; at += 8, length -= 8) {
    memcpy(&word, at, 8);
    x = (x ^ word) * 0x9e3779b97f4a7c15u;
    x ^= x >> 32;
  }
  for (; length; at++, length--) x = (x ^ *at) * 0x100000001b3u;
  slots[me].digest = (uint32_t)(x ^ x >> 32) | 1;
}

static void digest_question(const question *q) {
  int64_t numbers[] = {q->what, q->a, q->what == ASK_CHILD ? 0 : q->b, (int64_t)q->room};
  digest(numbers, sizeof numbers);
  if (q->path) digest(q->path, strlen(q->path));
  if (q->second) digest(q->second, strlen(q->second));
  if (q->length && q->what > LAST_SURE) digest(q->bytes, q->length);
}

/* The next names in a directory, or those from a place on, each after its number, the place behind it and its kind. The
 * kernel has them in more bytes than they take here, so all that it gives have room. */
enum { DENTS = 8192 };
static long listing(int directory, long from, uint8_t *out, size_t room) {
  const char *piece = (const char *)slots[me].room + ROOM - DENTS;
  long n = from < 0 ? 0 : KERNEL(SYS_lseek, directory, from, SEEK_SET), used = 0;
  while (n >= 0 && (size_t)used + DENTS <= room && (n = KERNEL(SYS_getdents64, directory, piece, DENTS)) > 0) {
    for (long here = 0; here < n; here += *(const unsigned short *)(piece + here + 16)) {
      size_t length = strlen(piece + here + 19) + 1;
      memcpy(out + used, piece + here, 16);
      out[used + 16] = (uint8_t)piece[here + 18];
      memcpy(out + used + 17, piece + here + 19, length);
      used += 17 + (long)length;
    }
  }
  return n < 0 && !used ? n : used;
}

/* The kind of file that is open, as the bits of its mode. */
static long kind_of(int fd) {
  struct stat status;
  long r = KERNEL(SYS_fstat, fd, &status);
  return r < 0 ? r : (long)(status.st_mode & S_IFMT);
}

/* What has a number, of this process or of one that is given. */
static long number(long which, int64_t given) {
  switch (which) {
  case SYS_getpid: case SYS_getppid: case SYS_gettid: case SYS_getuid: case SYS_geteuid: case SYS_getgid:
  case SYS_getegid: case SYS_getpgrp: case SYS_getpgid: case SYS_getsid: case SYS_setsid: case SYS_umask:
    return KERNEL(which, given);
  case SYS_setpgid: return KERNEL(SYS_setpgid, (int32_t)given, given >> 32);
  default: return -ENOSYS;
  }
}
/* .. and what has several. */
static long numbers(long which, int64_t given, uint8_t *out) {
  return which == SYS_getgroups ? KERNEL(SYS_getgroups, given, out) : KERNEL(which, out, out + 4, out + 8);
}

/* A limit, as the C library has it: none is -1, and no error. */
static long path_limit(const question *q) {
  errno = 0;
  long limit = q->at < 0 ? pathconf(q->path, (int)q->a) : fpathconf(q->at, (int)q->a);
  return limit >= 0 ? limit : errno ? -errno : -(1L << 32);
}

/* Asks the host about names. */
static long ask_names(const question *q, uint8_t *out) {
  char number[32]; /* the name of what is open */
  switch (q->what) {
  case ASK_STAT: return KERNEL(SYS_newfstatat, q->at, q->path, out, q->a);
  case ASK_STATFS: return KERNEL(SYS_statfs, q->path, out);
  case ASK_TRUNCATE: return KERNEL(SYS_truncate, q->path, q->a);
  case ASK_UNLINK: return KERNEL(SYS_unlinkat, q->at, q->path, q->a);
  case ASK_RENAME: return KERNEL(SYS_renameat2, q->at, q->path, q->at_second, q->second, q->b);
  case ASK_LINK: return KERNEL(SYS_linkat, q->at, q->path, q->at_second, q->second, q->b);
  case ASK_SYMLINK: return KERNEL(SYS_symlinkat, q->path, q->at, q->second);
  case ASK_MKDIR: return KERNEL(SYS_mkdirat, q->at, q->path, q->a);
  case ASK_MKNOD: return KERNEL(SYS_mknodat, q->at, q->path, q->a, q->b);
  case ASK_ACCESS:
    return q->b ? KERNEL(SYS_faccessat2, q->at, q->path, q->a, q->b) : KERNEL(SYS_faccessat, q->at, q->path, q->a);
  case ASK_CHMOD: return KERNEL(SYS_fchmodat, q->at, q->path, q->a);
  case ASK_CHOWN: return KERNEL(SYS_fchownat, q->at, q->path, (uint32_t)q->a, (uint32_t)(q->a >> 32), q->b);
  case ASK_UTIMES: return KERNEL(SYS_utimensat, q->at, q->path, q->bytes, q->a);
  case ASK_READLINK:
    snprintf(number, sizeof number, "/proc/self/fd/%d", q->at);
    return KERNEL(SYS_readlinkat, q->at, q->a ? number : q->path, out, q->room);
  case ASK_GETCWD: return KERNEL(SYS_getcwd, out, q->room);
  case ASK_CHDIR: return KERNEL(SYS_chdir, q->path);
  case ASK_GETXATTR: return KERNEL(q->b ? SYS_lgetxattr : SYS_getxattr, q->path, q->second, out, q->a);
  case ASK_LISTXATTR: return KERNEL(q->b ? SYS_llistxattr : SYS_listxattr, q->path, out, q->a);
  default: return -ENOSYS;
  }
}

/* Asks the host about what is open. */
static long ask_open(const question *q, uint8_t *out) {
  socklen_t length = (socklen_t)q->room;
  long r;
  switch (q->what) {
  case ASK_FSTAT: return KERNEL(SYS_fstat, q->at, out);
  case ASK_FSTATFS: return KERNEL(SYS_fstatfs, q->at, out);
  case ASK_PREAD: return KERNEL(SYS_pread64, q->at, out, q->room, q->a);
  case ASK_PWRITE: return KERNEL(SYS_pwrite64, q->at, q->bytes, q->length, q->a);
  case ASK_FTRUNCATE: return KERNEL(SYS_ftruncate, q->at, q->a);
  case ASK_FALLOCATE: return KERNEL(SYS_fallocate, q->at, q->length ? *(const int *)q->bytes : 0, q->a, q->b);
  case ASK_FSYNC: return KERNEL(q->a ? SYS_fdatasync : SYS_fsync, q->at);
  case ASK_FLOCK: return KERNEL(SYS_flock, q->at, q->a | LOCK_NB);
  case ASK_LOCKED: memcpy(out, q->bytes, q->length); return KERNEL(SYS_fcntl, q->at, q->a, out);
  case ASK_FCHMOD: return KERNEL(SYS_fchmod, q->at, q->a);
  case ASK_FCHOWN: return KERNEL(SYS_fchown, q->at, q->a, q->b);
  case ASK_FCHDIR: return KERNEL(SYS_fchdir, q->at);
  case ASK_LISTING: return listing(q->at, (long)q->a, out, q->room);
  case ASK_FGETXATTR: return KERNEL(SYS_fgetxattr, q->at, q->second, out, q->a);
  case ASK_FLISTXATTR: return KERNEL(SYS_flistxattr, q->at, out, q->a);
  case ASK_IOCTL: return call_ioctl(q, out);
  case ASK_SOCKNAME:
  case ASK_PEERNAME:
    r = KERNEL(q->what == ASK_SOCKNAME ? SYS_getsockname : SYS_getpeername, q->at, out, &length);
    return r < 0 ? r : (long)length;
  default: return ask_names(q, out);
  }
}

/* Asks the host anything. */
static long ask_host(const question *q, uint8_t *out) {
  switch (q->what) {
  case ASK_ABOUT: memcpy(out, q->bytes, q->length); return (long)q->length;
  case ASK_WAITED: memcpy(out, q->bytes, q->length); return q->a;
  case ASK_CLOSED: return 0;
  case ASK_SIGNAL: return take_arrived((siginfo_t *)out);
  case ASK_COUNT: return count_at_host(out);
  case ASK_LEFT: memcpy(out, q->bytes, q->length); return 0;
  case ASK_ERROR: return slots[me].error;
  case ASK_KIND: return kind_of(q->at);
  case ASK_CLOCK: return KERNEL(SYS_clock_gettime, q->a, out);
  case ASK_RANDOM: return KERNEL(SYS_getrandom, out, q->room, q->a);
  case ASK_RESOLUTION: return KERNEL(SYS_clock_getres, q->a, out);
  case ASK_NUMBER: return number((long)q->a, q->b);
  case ASK_NUMBERS: return numbers((long)q->a, q->b, out);
  case ASK_PATHCONF: return path_limit(q);
  case ASK_KILL: return KERNEL(SYS_kill, q->a, q->b);
  case ASK_CHILD: return ((long (*)(const void *))(intptr_t)q->b)(q->bytes);
  case ASK_SYSINFO: return KERNEL(SYS_sysinfo, out);
  case ASK_UNAME: return KERNEL(SYS_uname, out);
  case ASK_USAGE: return KERNEL(SYS_getrusage, q->a, out);
  case ASK_TIMES: return KERNEL(SYS_times, out);
  case ASK_AFFINITY: return KERNEL(SYS_sched_getaffinity, q->a, q->room, out);
  case ASK_NET: return call_net(q, out);
  case ASK_HOSTS: return call_hosts(q, out);
  case ASK_EXEC: return look_for_program(q, out);
  case ASK_TIMER: return call_timer((long)q->a, q->b, q->bytes, out);
  case ASK_SIGNALS: return KERNEL(SYS_rt_sigpending, out, 8);
  default: return ask_open(q, out);
  }
}

/* How many bytes of its answer a question has, by its result. */
static size_t bytes_of(const question *q, long result) {
  if (result < 0) return 0;
  switch (q->what) {
  case ASK_ABOUT: case ASK_RANDOM: case ASK_PREAD: case ASK_READLINK: case ASK_GETCWD: case ASK_LISTING:
  case ASK_SOCKNAME: case ASK_PEERNAME: case ASK_AFFINITY: case ASK_HOSTS:
    return (size_t)result < q->room ? (size_t)result : q->room;
  case ASK_NET: return bytes_of_net(q, result);
  case ASK_GETXATTR: case ASK_FGETXATTR: case ASK_LISTXATTR: case ASK_FLISTXATTR: return q->a ? (size_t)result : 0;
  default: return q->room;
  }
}

static void answer(const question *q, uint8_t *data, detio_outcome *came) {
  slot *s = &slots[me];
  answer_head h = {.what = (uint16_t)q->what, .digest = s->digest};
  if (q->what == ASK_WAITED) h.pushes = s->woken ? NEVER : s->pushes;
  if (q->what == ASK_SIGNAL) h.pushes = s->entries;
  if (q->room <= 512) memset(data + sizeof h, 0, q->room);
  long result = ask_host(q, data + sizeof h);
  h.result = result < 0 ? -1 : result;
  h.error = result < 0 ? (uint16_t)-result : 0;
  memcpy(data, &h, sizeof h);
  came->value = came->length = sizeof h + bytes_of(q, result);
}

/* Opens a door by its name: one of ours, or a path of the host, relative to a directory that is open or not. */
static void open_door(uint8_t *data, size_t length, detio_outcome *came) {
  const question *q = slots[me].asked;
  long opened = -ENOENT;
  if (length == 7 && !memcmp(data, "detio:o", 7)) {
    came->opened = ORACLE_DOOR;
    return;
  }
  if (length == 7 && !memcmp(data, "detio:0", 7)) opened = KERNEL(SYS_fcntl, 0, F_DUPFD_CLOEXEC, NATIVE);
  else if (length == 7 && !memcmp(data, "detio:f", 7)) opened = KERNEL(SYS_fcntl, q->at, F_DUPFD_CLOEXEC, NATIVE);
  else if (q) opened = KERNEL(SYS_openat, q->at, q->path, slots[me].how | O_CLOEXEC, slots[me].mode);
  if (opened < 0) {
    came->error = detio_host_error((int)-opened);
    errno = (int)-opened;
  } else {
    came->opened = (uint64_t)opened;
  }
}

/* Whether --fault has this outcome fail. */
static bool is_faulty(const detio_outside *asked, bool oracle) {
  if (!begun || !run.fault || asked->kind == DETIO_ASKS_CLOSE) return false;
  if (oracle && (!slots[me].asked || slots[me].asked->what < LAST_SURE)) return false;
  return ++outsides == run.fault;
}

/* Reaches the host, without the lock. */
static void reach(const detio_outside *asked, bool goes, uint64_t door, uint8_t *data, detio_outcome *came) {
  slot *s = &slots[me];
  memset(came, 0, sizeof *came);
  errno = 0;
  if (asked->kind == DETIO_ASKS_OPEN) {
    open_door(data, asked->length, came);
  } else if (goes && door == ORACLE_DOOR) {
    if (asked->kind == DETIO_ASKS_READ && s->asked) answer(s->asked, data, came);
  } else {
    detio_host_reach(asked, goes, door, 10, data, ROOM, came);
  }
  s->error = errno;
  s->opened = came->error ? -1 : (int)came->opened;
  bool opens = asked->kind == DETIO_ASKS_OPEN || (asked->kind >= DETIO_ASKS_LISTEN && asked->kind <= DETIO_ASKS_ACCEPT);
  if (opens && !came->error && came->opened < NATIVE)
    ends(OURS, "the host opened number %d, which is the run's own: somebody closed what kept it", s->opened);
}

/* The next outcome of this thread in the log: DETIO_DONE, or the thread lacks it. */
static uint32_t from_log(const detio_outside *asked, detio_outcome *came, uint8_t *data) {
  slot *s = &slots[me];
  uint32_t code = detio_next(&machine, (size_t)me, came, data, ROOM);
  s->opened = -1;
  if (code == DETIO_DIVERGED) end_diverged(call_asked(asked, s->asked), NULL);
  if (code == DETIO_END_OF_LOG) s->lacks = true;
  return code;
}

/* The call of this thread goes outside, and comes back with its outcome. The lock is held before and after. */
uint32_t go_outside(void) {
  slot *s = &slots[me];
  detio_outside asked;
  detio_outcome came;
  bool goes = false;
  uint64_t door = 0;
  uint32_t code = detio_request(&machine, (size_t)me, &asked, s->room, ROOM);
  if (!code) code = detio_begin_outside(&machine, (size_t)me, &goes, &door);
  if (code) return code;
  if (run.replays) {
    if (from_log(&asked, &came, s->room)) return s->lacks ? DETIO_DONE : DETIO_DIVERGED;
  } else {
    bool faulty = is_faulty(&asked, goes && door == ORACLE_DOOR);
    settle();
    unlock_run();
    if (faulty) memset(&came, 0, sizeof came), came.error = DETIO_EIO, s->error = EIO;
    else reach(&asked, goes, door, s->room, &came);
    lock_run();
  }
  came.back = door;
  s->outcomes++;
  if (run.replays) s->comes = next_signal(me);
  if ((code = detio_record(&machine, (size_t)me, &came, s->room, came.length))) return code;
  if (!run.replays) write_log();
  return DETIO_DONE;
}

/* Asks the outside: its result, and the bytes of the answer. Where it fails, -1, and errno says why. */
int64_t ask(const question *q, void *out, size_t *length) {
  slot *s = &slots[me];
  detio_reply reply;
  answer_head h;
  digest_question(q);
  s->asked = q;
  make_call(&(detio_call){.kind = DETIO_READ, .descriptor = ORACLE, .number = (int64_t)(sizeof h + q->room)}, NULL, 0,
            NULL, 0, &reply, s->room, ROOM);
  s->asked = NULL;
  if (reply.kind != DETIO_DATA || reply.count < sizeof h) return errno = EIO, -1;
  memcpy(&h, s->room, sizeof h);
  if (run.replays && (h.what != q->what || h.digest != s->digest)) end_diverged(question_asked(q), &h);
  s->digest = 0;
  if (out) memcpy(out, s->room + sizeof h, reply.count - sizeof h);
  if (length) *length = reply.count - sizeof h;
  if (h.error) errno = (int)h.error;
  return h.result;
}

int64_t asks(enum ask what, int at, const char *path, int64_t a, void *out, size_t room) {
  return ask(&(question){.what = what, .at = at, .path = path, .a = a, .room = room}, out, NULL);
}

/* The outcome of a wait: these bits, and whether a signal ended it. */
static void record_wait(int16_t *bits, size_t count, bool woken) {
  enum { MOST_BITS = 96 };
  int16_t all[MOST_BITS + 1] = {slots[me].signalled};
  if (count > MOST_BITS) ends(OURS, "a wait for too much");
  if (count) memcpy(all + 1, bits, 2 * count);
  (void)ask(&(question){.what = ASK_WAITED, .a = woken, .bytes = all, .length = 2 * count + 2, .room = 2 * count + 2},
            all, NULL);
  slots[me].signalled = all[0] != 0;
  if (count) memcpy(bits, all + 1, 2 * count);
}
bool wait_outside(const void *what, void (*ready)(void *), void *given, int16_t *bits, size_t count) {
  bool woken = park_outside(what, ready, given);
  unlock_run();
  record_wait(bits, count, false);
  return woken;
}

/* A time of another clock as one of CLOCK_MONOTONIC. */
static struct timespec as_monotonic(clockid_t clock, const struct timespec *until) {
  struct timespec now, here;
  KERNEL(SYS_clock_gettime, clock, &now);
  KERNEL(SYS_clock_gettime, CLOCK_MONOTONIC, &here);
  int64_t seconds = (int64_t)until->tv_sec - now.tv_sec + here.tv_sec;
  int64_t nanos = (int64_t)until->tv_nsec - now.tv_nsec + here.tv_nsec;
  for (; nanos < 0; nanos += 1000000000) seconds--;
  for (; nanos >= 1000000000; nanos -= 1000000000) seconds++;
  if (seconds < 0) return (struct timespec){0, 0};
  return (struct timespec){seconds, nanos};
}

static void await_time(void *until) {
  struct pollfd doors[1];
  (void)wait_at_host(doors, 0, until);
}
bool wait_until(const void *what, clockid_t clock, const struct timespec *until) {
  struct timespec then = as_monotonic(clock, until);
  bool woken = park_outside(what, await_time, &then);
  unlock_run();
  record_wait(NULL, 0, woken);
  return woken;
}
