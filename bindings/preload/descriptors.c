/* Calls on descriptors. The program's numbers below NATIVE are the machine's; the host's begin there, since the numbers
 * below it are taken at the start. */
#define _GNU_SOURCE
#include "preload.h"

#include <fcntl.h>
#include <limits.h>
#include <linux/close_range.h>
#include <poll.h>
#include <stdlib.h>
#include <string.h>
#include <sys/file.h>
#include <sys/mman.h>
#include <sys/resource.h>
#include <sys/sendfile.h>
#include <sys/stat.h>
#include <sys/syscall.h>
#include <sys/uio.h>
#include <sys/vfs.h>
#include <unistd.h>

static opened_file *numbers[NUMBERS];
static bool closes_on_exec[NUMBERS];

bool is_ours(int fd) { return fd < NATIVE; }
opened_file *opened_at(int fd) {
  static opened_file none = {.real = -1};
  return fd >= 0 && fd < NUMBERS && numbers[fd] ? numbers[fd] : &none;
}
/* The descriptor of the host of a number of ours, or the number itself where it is the host's. */
int real_of(int fd) { return is_ours(fd) && fd != AT_FDCWD ? opened_at(fd)->real : fd; }

/* Whether a number of the host is behind one of ours, or has a thread of ours come back from a wait, so that the
 * program does not have it. */
static bool is_behind(int real) {
  for (int fd = 0; real >= NATIVE && fd < NUMBERS; fd++)
    if (numbers[fd] && numbers[fd]->real == real) return true;
  for (int i = 0; real >= NATIVE && i < SLOTS; i++)
    if (slots[i].waker == real) return true;
  return false;
}

/* These errors of the machine stand for several of the host: which one it was is asked. */
static bool is_vague(uint32_t error) { return error == DETIO_EIO || error == DETIO_EACCES; }

static const int errors[] = {0,       EBADF,        EINVAL,   EOVERFLOW,    ESPIPE,     EFBIG,      EAGAIN,
                             EPIPE,   EINTR,        EIO,      ENOENT,       EEXIST,     ENOTDIR,    EISDIR,
                             ENOTEMPTY, EPERM,      EACCES,   EMFILE,       ENFILE,     ENOSPC,     ENAMETOOLONG,
                             ENOTSOCK, EBUSY,       ECONNREFUSED, ECONNRESET, EADDRINUSE, ETIMEDOUT};
int fails(uint32_t error) {
  errno = error < sizeof errors / sizeof *errors ? errors[error] : EIO;
  return -1;
}

/* A call whose reply is a number, a count or done: -1 with errno where it failed. */
int64_t plain_call(const detio_call *call, const void *text, size_t length, void *data, size_t room) {
  detio_reply r;
  uint64_t before = slots[me].outcomes;
  if (make_call(call, text, length, NULL, 0, &r, data, room) == DETIO_NOT_A_CALL) return errno = EINVAL, -1;
  if (r.kind == DETIO_FAILURE && is_vague(r.error) && slots[me].outcomes != before) {
    int64_t error = asks(ASK_ERROR, 0, NULL, 0, NULL, 0);
    return errno = error > 0 ? (int)error : EIO, -1;
  }
  if (r.kind == DETIO_FAILURE && (r.error == DETIO_EMFILE || r.error == DETIO_ENFILE))
    uncovered("numbers",
              "no number for one more file, pipe or socket: 31 are there, 28 of the host: it fails, in a rerun too");
  if (r.kind == DETIO_FAILURE) return fails(r.error);
  return r.kind == DETIO_NUMBER ? r.first : r.kind == DETIO_COUNT || r.kind == DETIO_DATA ? (int64_t)r.count : 0;
}
int64_t call_on(int fd, uint32_t kind, int64_t number) {
  if (fd == ORACLE) return errno = EBADF, -1;
  return plain_call(&(detio_call){.kind = kind, .descriptor = fd, .number = number}, NULL, 0, NULL, 0);
}

int number_for(const opened_file *file) {
  for (int fd = 0; fd < NUMBERS; fd++)
    if (numbers[fd] == file) return fd;
  return -1;
}
/* What a number refers to from now on. What it referred to before stays, since a thread may be in a call on it. */
void refer(int fd, opened_file *file) {
  if (fd < 0 || fd >= NUMBERS) return;
  opened_file *before = numbers[fd];
  numbers[fd] = file;
  closes_on_exec[fd] = false;
  if (before && before != file && number_for(before) < 0) note_closed(before, true, true);
}
void *new_opened(int fd, enum kind kind, int real) {
  lock_run();
  opened_file *file = detio_heap_calloc(1, sizeof *file);
  unlock_run();
  if (!file) ends(OURS, "out of memory");
  *file = (opened_file){.kind = kind, .real = real};
  refer(fd, file);
  return file;
}

/* What is open at the host has this kind: a directory is read by its names, and all but files may wait. */
static void set_kind(opened_file *file, int64_t kind) {
  file->directory = S_ISDIR(kind);
  file->waits = !S_ISREG(kind) && !S_ISDIR(kind) && !S_ISBLK(kind);
}

int takes_door(int real) {
  slot *s = &slots[me];
  question q = {.at = real};
  s->asked = &q;
  int fd = (int)plain_call(&(detio_call){.kind = DETIO_HOST_OPEN, .choice = DETIO_READ_WRITE}, "detio:f", 7, NULL, 0);
  int opened = s->opened;
  s->asked = NULL;
  if (fd < 0) return fd;
  ((opened_file *)new_opened(fd, HOST, opened))->waits = true;
  return fd;
}

/* Opens a path, relative to a directory of the host: the number, or -1. */
int opens_at(int at, const char *path, int how, int mode) {
  const char *memory = at == AT_FDCWD || *path == '/' ? in_memory(path) : NULL;
  question q = {.at = at, .path = path};
  slot *s = &slots[me];
  detio_call c = {.kind = memory ? DETIO_OPEN : DETIO_HOST_OPEN, .choice = (uint32_t)(how & O_ACCMODE)};
  if (c.choice > DETIO_READ_WRITE || (how & O_PATH)) c.choice = DETIO_READ_ONLY;
  c.flags = (how & O_CREAT ? DETIO_CREATE : 0) | (how & O_EXCL ? DETIO_EXCLUSIVE : 0) |
            (how & O_TRUNC ? DETIO_TRUNCATE : 0) | (how & O_APPEND ? DETIO_APPEND : 0) |
            (how & O_NONBLOCK ? DETIO_NONBLOCK : 0);
  s->asked = memory ? NULL : &q;
  s->how = how;
  s->mode = mode;
  if (!memory) digest(path, strlen(path));
  int fd = (int)(memory ? plain_call(&c, memory, strlen(memory), NULL, 0) : plain_call(&c, "file", 4, NULL, 0));
  int opened = s->opened;
  s->asked = NULL;
  if (fd < 0) return fd;
  opened_file *file = new_opened(fd, memory ? MEMORY : HOST, memory ? -1 : opened);
  closes_on_exec[fd] = how & O_CLOEXEC;
  if (memory) return fd;
  set_kind(file, asks(ASK_KIND, opened, NULL, 0, NULL, 0));
  file->nonblock = how & O_NONBLOCK;
  return fd;
}

/* The number that a name below /dev/fd or /proc/self/fd has, or -1: the host's numbers are others. */
int number_named(const char *path) {
  const char *number = !strncmp(path, "/dev/fd/", 8) ? path + 8 : !strncmp(path, "/proc/self/fd/", 14) ? path + 14 : "";
  return *number >= '0' && *number <= '9' && !strchr(number, '/') ? atoi(number) : -1;
}
static int opens(int at, const char *path, int how, int mode) {
  if (!strncmp(path, "/dev/std", 8)) {
    int fd = !strcmp(path + 8, "in") ? 0 : !strcmp(path + 8, "out") ? 1 : !strcmp(path + 8, "err") ? 2 : -1;
    if (fd >= 0) return dup(fd);
  }
  int number = number_named(path);
  return number >= 0 ? dup(number) : opens_at(at, path, how, mode);
}

/* The mode that comes after the flags of an opening. */
#define MODE_AFTER(how)                                            \
  int mode = 0;                                                    \
  if ((how & O_CREAT) || (how & O_TMPFILE) == O_TMPFILE) {         \
    va_list given;                                                 \
    va_start(given, how);                                          \
    mode = va_arg(given, int);                                     \
    va_end(given);                                                 \
  }
#define OPENS(name)                                                \
  EXPORT int name(const char *path, int how, ...) {                \
    NEXT(name);                                                    \
    MODE_AFTER(how)                                                \
    OFF(next(path, how, mode));                                    \
    if (!asked_of_us(path)) return next(path, how, mode);          \
    return opens(AT_FDCWD, path, how, mode);                       \
  }
OPENS(open)
OPENS(open64)
EXPORT int __open_2(const char *path, int how) { return open(path, how); }
EXPORT int __open64_2(const char *path, int how) { return open(path, how); }
EXPORT int creat(const char *path, mode_t mode) { return open(path, O_CREAT | O_WRONLY | O_TRUNC, mode); }
EXPORT int creat64(const char *path, mode_t mode) { return creat(path, mode); }
#define OPENS_AT(name)                                                             \
  EXPORT int name(int at, const char *path, int how, ...) {                        \
    NEXT(name);                                                                    \
    MODE_AFTER(how)                                                                \
    OFF(next(at, path, how, mode));                                                \
    if (!asked_of_us(path) && (at == AT_FDCWD || !path || *path == '/')) return next(at, path, how, mode); \
    return opens(real_of(at), path, how, mode);                                    \
  }
OPENS_AT(openat)
OPENS_AT(openat64)
EXPORT int __openat_2(int at, const char *path, int how) { return openat(at, path, how); }
EXPORT int __openat64_2(int at, const char *path, int how) { return openat(at, path, how); }

EXPORT int close(int fd) {
  NEXT(close);
  OFF(next(fd));
  if (fd == ORACLE || is_behind(fd)) return errno = EBADF, -1;
  if (!is_ours(fd)) return next(fd);
  int r = (int)call_on(fd, DETIO_CLOSE, 0);
  if (!r) refer(fd, NULL);
  return r;
}
/* Of a range of numbers ours are closed; those of the host stay, since the library's own are among them. */
EXPORT int close_range(unsigned first, unsigned last, int flags) {
  NEXT(close_range);
  OFF(next(first, last, flags));
  if (first > last || (flags & ~(CLOSE_RANGE_UNSHARE | CLOSE_RANGE_CLOEXEC))) return errno = EINVAL, -1;
  for (unsigned fd = first; fd <= last && fd < NUMBERS; fd++)
    if (fd != ORACLE && numbers[fd]) (void)close((int)fd);
  return 0;
}
EXPORT void closefrom(int first) { (void)close_range(first < 0 ? 0 : (unsigned)first, UINT_MAX, 0); }

/* Reads and writes. A read or a write of a stream waits for its peer before it is made: so it holds nobody up. */
bool wait_for_door(int fd, short events) {
  const opened_file *f = opened_at(fd);
  struct pollfd door = {.fd = f->real, .events = events};
  int64_t nanos = events == POLLIN && f->kind != HOST ? f->in_nanos : 0;
  if ((f->kind != STREAM && f->kind != LISTENER && (f->kind != HOST || !f->waits)) || f->nonblock) return true;
  for (;;) {
    await_doors(&door, 1, nanos ? nanos : -1);
    if (door.revents) return true;
    if (!was_cut()) return errno = EAGAIN, false;
    if (is_interrupted(!nanos)) return false;
  }
}

/* A read at the descriptor's offset, or where `at` is none of it. */
static ssize_t reads(int fd, void *bytes, size_t count, off_t at) {
  const opened_file *f = opened_at(fd);
  if (f->kind == NONE) return errno = EBADF, -1;
  if (f->kind == EVENT && at < 0) return read_event(f, bytes, count);
  if (f->kind == TIMER && at < 0) return read_timer(f, bytes, count);
  if (f->kind >= EVENT || (f->kind == NET && at >= 0)) return errno = at < 0 ? EINVAL : ESPIPE, -1;
  if (f->kind == NET) return receive_net(fd, bytes, count, 0, NULL, NULL, NULL);
  forget_told(f);
  bool all = f->kind == HOST && !f->waits ? true : f->kind == MEMORY;
  size_t done = 0;
  if (at < 0 && count && !wait_for_door(fd, POLLIN)) return -1;
  do {
    if (at < 0 && count && !done && !f->nonblock && !await_bytes(f)) return -1;
    size_t most = at >= 0 && f->kind == HOST ? PIECE : MOST, piece = count - done < most ? count - done : most, n = 0;
    int64_t got;
    if (at >= 0 && f->kind == HOST) {
      got = ask(&(question){.what = ASK_PREAD, .at = f->real, .a = at + (off_t)done, .room = piece},
                (char *)bytes + done, &n);
    } else {
      got = plain_call(&(detio_call){.kind = at < 0 ? DETIO_READ : DETIO_PREAD, .descriptor = fd,
                                     .number = (int64_t)piece, .position = at + (off_t)done},
                       NULL, 0, (char *)bytes + done, piece);
    }
    if (got < 0 && errno == EINTR && !done && !f->nonblock) continue; /* the patience was over */
    if (got < 0) return done ? (ssize_t)done : -1;
    note_moved(f, got, 0);
    done += (size_t)got;
    if ((size_t)got < piece || !all) break;
  } while (done < count);
  return (ssize_t)done;
}
EXPORT ssize_t read(int fd, void *bytes, size_t count) {
  NEXT(read);
  OFF(next(fd, bytes, count));
  return is_ours(fd) ? reads(fd, bytes, count, -1) : next(fd, bytes, count);
}
EXPORT ssize_t __read_chk(int fd, void *bytes, size_t count, size_t room) {
  if (count > room) abort();
  return read(fd, bytes, count);
}
EXPORT ssize_t pread(int fd, void *bytes, size_t count, off_t at) {
  NEXT(pread);
  OFF(next(fd, bytes, count, at));
  if (is_ours(fd) && at < 0) return errno = EINVAL, -1;
  return is_ours(fd) ? reads(fd, bytes, count, at) : next(fd, bytes, count, at);
}
EXPORT ssize_t pread64(int fd, void *bytes, size_t count, off_t at) { return pread(fd, bytes, count, at); }
EXPORT ssize_t __pread_chk(int fd, void *bytes, size_t count, off_t at, size_t room) {
  if (count > room) abort();
  return pread(fd, bytes, count, at);
}
EXPORT ssize_t __pread64_chk(int fd, void *bytes, size_t count, off_t at, size_t room) {
  return __pread_chk(fd, bytes, count, at, room);
}

/* Standard output and standard error go straight to the host, at their turns, and in a rerun too. */
static ssize_t write_standard(int to, const char *bytes, size_t count) {
  size_t done = 0;
  digest(bytes, count);
  turn();
  while (done < count) {
    long n = KERNEL(SYS_write, to, bytes + done, count - done);
    if (n == -EINTR) continue;
    if (n == -EAGAIN) {
      struct pollfd there = {.fd = to, .events = POLLOUT};
      KERNEL(SYS_ppoll, &there, 1, NULL, NULL, 0);
      continue;
    }
    if (n < 0 && !run.replays) /* its outcome has no record */
      ends(OURS, "standard %s cannot be written: %s", to == 1 ? "output" : "error", strerror((int)-n));
    if (n < 0) break;
    done += (size_t)n;
  }
  turn_end();
  return (ssize_t)count;
}
static ssize_t writes(int fd, const char *bytes, size_t count, off_t at) {
  const opened_file *f = opened_at(fd);
  if (f->kind == NONE) return errno = EBADF, -1;
  if (f->kind == STANDARD && at >= 0) return errno = ESPIPE, -1; /* as of a pipe: see lseek */
  if (f->kind == STANDARD) return write_standard(f->real, bytes, count);
  if (f->kind == EVENT && at < 0) return write_event(f, bytes, count);
  if (f->kind >= EVENT || (f->kind == NET && at >= 0)) return errno = at < 0 ? EINVAL : ESPIPE, -1;
  if (f->kind == NET) return send_net(fd, bytes, count, 0, NULL, 0);
  forget_told(f);
  if (at < 0) digest(bytes, f->kind == HOST || f->kind == STREAM ? count : 0);
  size_t done = 0;
  do {
    size_t piece = count - done < MOST ? count - done : MOST;
    int64_t got;
    if (at >= 0 && f->kind == HOST)
      got = ask(&(question){.what = ASK_PWRITE, .at = f->real, .a = at + (off_t)done, .bytes = bytes + done,
                            .length = piece}, NULL, NULL);
    else
      got = plain_call(&(detio_call){.kind = at < 0 ? DETIO_WRITE : DETIO_PWRITE, .descriptor = fd,
                                     .position = at + (off_t)done}, bytes + done, piece, NULL, 0);
    if (got < 0 && errno == EINTR && !f->nonblock) continue;
    if (got < 0) return done ? (ssize_t)done : -1;
    note_moved(f, 0, got);
    done += (size_t)got;
    if ((size_t)got < piece && (f->nonblock || f->kind == MEMORY || f->kind == HOST)) break;
  } while (done < count);
  return (ssize_t)done;
}
EXPORT ssize_t write(int fd, const void *bytes, size_t count) {
  NEXT(write);
  OFF(next(fd, bytes, count));
  return is_ours(fd) ? writes(fd, bytes, count, -1) : next(fd, bytes, count);
}
EXPORT ssize_t pwrite(int fd, const void *bytes, size_t count, off_t at) {
  NEXT(pwrite);
  OFF(next(fd, bytes, count, at));
  if (is_ours(fd) && at < 0) return errno = EINVAL, -1;
  return is_ours(fd) ? writes(fd, bytes, count, at) : next(fd, bytes, count, at);
}
EXPORT ssize_t pwrite64(int fd, const void *bytes, size_t count, off_t at) { return pwrite(fd, bytes, count, at); }

/* Of several buffers one call each, until one moves less than was asked. */
#define EACH(one)                                        \
  ssize_t moved = 0;                                     \
  for (int i = 0; i < count; i++) {                      \
    ssize_t n = one;                                     \
    if (n < 0) return moved ? moved : n;                 \
    moved += n;                                          \
    if ((size_t)n < parts[i].iov_len) break;             \
  }                                                      \
  return moved
EXPORT ssize_t readv(int fd, const struct iovec *parts, int count) {
  NEXT(readv);
  OFF(next(fd, parts, count));
  if (!is_ours(fd)) return next(fd, parts, count);
  EACH(read(fd, parts[i].iov_base, parts[i].iov_len));
}
EXPORT ssize_t preadv(int fd, const struct iovec *parts, int count, off_t at) {
  NEXT(preadv);
  OFF(next(fd, parts, count, at));
  if (!is_ours(fd)) return next(fd, parts, count, at);
  EACH(pread(fd, parts[i].iov_base, parts[i].iov_len, at + moved));
}
EXPORT ssize_t preadv64(int fd, const struct iovec *parts, int count, off_t at) { return preadv(fd, parts, count, at); }
EXPORT ssize_t pwritev(int fd, const struct iovec *parts, int count, off_t at) {
  NEXT(pwritev);
  OFF(next(fd, parts, count, at));
  if (!is_ours(fd)) return next(fd, parts, count, at);
  EACH(pwrite(fd, parts[i].iov_base, parts[i].iov_len, at + moved));
}
EXPORT ssize_t pwritev64(int fd, const struct iovec *parts, int count, off_t at) {
  return pwritev(fd, parts, count, at);
}
/* .. in one of the ways that flags say: in none of them. */
static int refused_way(const char *call, int how) {
  uncovered(call, "%s with flags %d is not covered: refused, in a rerun too", call, how);
  return errno = EOPNOTSUPP, -1;
}
EXPORT ssize_t preadv2(int fd, const struct iovec *parts, int count, off_t at, int how) {
  NEXT(preadv2);
  OFF(next(fd, parts, count, at, how));
  if (!is_ours(fd)) return next(fd, parts, count, at, how);
  if (how) return refused_way("preadv2", how);
  return at == -1 ? readv(fd, parts, count) : preadv(fd, parts, count, at);
}
EXPORT ssize_t pwritev2(int fd, const struct iovec *parts, int count, off_t at, int how) {
  NEXT(pwritev2);
  OFF(next(fd, parts, count, at, how));
  if (!is_ours(fd)) return next(fd, parts, count, at, how);
  if (how) return refused_way("pwritev2", how);
  return at == -1 ? writev(fd, parts, count) : pwritev(fd, parts, count, at);
}
EXPORT ssize_t preadv64v2(int fd, const struct iovec *parts, int count, off_t at, int how) {
  return preadv2(fd, parts, count, at, how);
}
EXPORT ssize_t pwritev64v2(int fd, const struct iovec *parts, int count, off_t at, int how) {
  return pwritev2(fd, parts, count, at, how);
}
/* .. but what is written together stays together. */
EXPORT ssize_t writev(int fd, const struct iovec *parts, int count) {
  NEXT(writev);
  OFF(next(fd, parts, count));
  if (!is_ours(fd)) return next(fd, parts, count);
  char bytes[4096];
  size_t all = 0;
  for (int i = 0; i < count; i++) all += parts[i].iov_len;
  if (all <= sizeof bytes) {
    size_t at = 0;
    for (int i = 0; i < count; at += parts[i++].iov_len) memcpy(bytes + at, parts[i].iov_base, parts[i].iov_len);
    return write(fd, bytes, all);
  }
  EACH(write(fd, parts[i].iov_base, parts[i].iov_len));
}

EXPORT off_t lseek(int fd, off_t offset, int whence) {
  NEXT(lseek);
  OFF(next(fd, offset, whence));
  if (!is_ours(fd)) return next(fd, offset, whence);
  enum kind kind = opened_at(fd)->kind;
  if (kind == NONE) return errno = EBADF, -1;
  if (kind >= EVENT) return 0;
  if (kind >= STREAM) return errno = ESPIPE, -1;
  struct stat status;
  if (whence == SEEK_DATA || whence == SEEK_HOLE) { /* all of a file is data, as where the host knows of no holes */
    if (fstat(fd, &status)) return -1;
    if (offset < 0 || offset >= status.st_size) return errno = ENXIO, -1;
    offset = whence == SEEK_DATA ? offset : status.st_size;
    whence = SEEK_SET;
  }
  if (whence > SEEK_END) return errno = EINVAL, -1;
  return plain_call(&(detio_call){.kind = DETIO_LSEEK, .descriptor = fd, .number = offset, .choice = (uint32_t)whence},
                    NULL, 0, NULL, 0);
}
EXPORT off_t lseek64(int fd, off_t offset, int whence) { return lseek(fd, offset, whence); }

/* What the host does to an open file. In memory it has no effect, where it has one outside alone. */
static int on_host(int fd, enum ask what, int64_t a, int64_t b) {
  const opened_file *f = opened_at(fd);
  if (f->kind == NONE) return errno = EBADF, -1;
  if (what == ASK_FSYNC && f->kind != HOST && f->kind != MEMORY && f->kind != STANDARD) return errno = EINVAL, -1;
  if (f->kind != HOST) return 0;
  return (int)ask(&(question){.what = what, .at = f->real, .a = a, .b = b}, NULL, NULL);
}
EXPORT int ftruncate(int fd, off_t size) {
  NEXT(ftruncate);
  OFF(next(fd, size));
  if (!is_ours(fd)) return next(fd, size);
  return opened_at(fd)->kind == HOST ? on_host(fd, ASK_FTRUNCATE, size, 0) : (int)call_on(fd, DETIO_FTRUNCATE, size);
}
EXPORT int ftruncate64(int fd, off_t size) { return ftruncate(fd, size); }
EXPORT int posix_fallocate(int fd, off_t from, off_t count) {
  NEXT(posix_fallocate);
  OFF(next(fd, from, count));
  if (!is_ours(fd)) return next(fd, from, count);
  int kept = errno, r = on_host(fd, ASK_FALLOCATE, from, count), error = errno;
  errno = kept;
  return r ? error : 0;
}
EXPORT int posix_fallocate64(int fd, off_t from, off_t count) { return posix_fallocate(fd, from, count); }
EXPORT int fallocate(int fd, int how, off_t from, off_t count) {
  NEXT(fallocate);
  OFF(next(fd, how, from, count));
  if (!is_ours(fd)) return next(fd, how, from, count);
  if (!how) return on_host(fd, ASK_FALLOCATE, from, count);
  const opened_file *f = opened_at(fd);
  if (f->kind != HOST) return errno = f->kind == NONE ? EBADF : EOPNOTSUPP, -1;
  return (int)ask(&(question){.what = ASK_FALLOCATE, .at = f->real, .a = from, .b = count, .bytes = &how,
                              .length = sizeof how}, NULL, NULL);
}
EXPORT int fallocate64(int fd, int how, off_t from, off_t count) { return fallocate(fd, how, from, count); }
#define ON_HOST(name, given, passed, what, a, b)  \
  EXPORT int name given {                         \
    NEXT(name);                                   \
    OFF(next passed);                             \
    if (!is_ours(fd)) return next passed;         \
    return on_host(fd, what, a, b);               \
  }
ON_HOST(fsync, (int fd), (fd), ASK_FSYNC, 0, 0)
ON_HOST(fdatasync, (int fd), (fd), ASK_FSYNC, 1, 0)
ON_HOST(syncfs, (int fd), (fd), ASK_FSYNC, 0, 0)
ON_HOST(sync_file_range, (int fd, off64_t from, off64_t count, unsigned how), (fd, from, count, how), ASK_FSYNC, 1, 0)
ON_HOST(fchmod, (int fd, mode_t mode), (fd, mode), ASK_FCHMOD, mode, 0)
ON_HOST(fchown, (int fd, uid_t user, gid_t group), (fd, user, group), ASK_FCHOWN, user, group)
/* A lock that waits is asked for again each 2 milliseconds, so that it holds nobody up: false where a handler has it
 * fail. */
static bool wait_a_little(void) {
  unsigned before = slots[me].cut;
  (void)poll(NULL, 0, 2);
  return slots[me].cut == before || (errno = EINTR, false);
}
EXPORT int flock(int fd, int how) {
  NEXT(flock);
  OFF(next(fd, how));
  if (!is_ours(fd)) return next(fd, how);
  for (;;) {
    int r = on_host(fd, ASK_FLOCK, how, 0);
    if (!r || errno != EWOULDBLOCK || (how & LOCK_NB)) return r;
    if (!wait_a_little()) return -1;
  }
}
EXPORT int posix_fadvise(int fd, off_t from, off_t count, int how) {
  NEXT(posix_fadvise);
  OFF(next(fd, from, count, how));
  return is_ours(fd) ? 0 : next(fd, from, count, how);
}
EXPORT int posix_fadvise64(int fd, off_t from, off_t count, int how) { return posix_fadvise(fd, from, count, how); }
EXPORT ssize_t readahead(int fd, off64_t from, size_t count) {
  NEXT(readahead);
  OFF(next(fd, from, count));
  return is_ours(fd) ? 0 : next(fd, from, count);
}

/* What the kernel copies from file to file is read and written. */
EXPORT ssize_t sendfile(int to, int from, off_t *at, size_t count) {
  NEXT(sendfile);
  OFF(next(to, from, at, count));
  if (!is_ours(to) && !is_ours(from)) return next(to, from, at, count);
  char bytes[16384];
  size_t done = 0;
  while (done < count) {
    size_t piece = count - done < sizeof bytes ? count - done : sizeof bytes;
    ssize_t n = at ? pread(from, bytes, piece, *at) : read(from, bytes, piece), got = n;
    if (n > 0) n = write(to, bytes, (size_t)n);
    int error = errno;
    if (!at && n < got) (void)lseek(from, (n < 0 ? 0 : n) - got, SEEK_CUR); /* what was not taken stays there */
    errno = error;
    if (n < 0) return done ? (ssize_t)done : -1;
    if (n == 0) break;
    if (at) *at += n;
    done += (size_t)n;
  }
  return (ssize_t)done;
}
EXPORT ssize_t sendfile64(int to, int from, off_t *at, size_t count) { return sendfile(to, from, at, count); }
/* .. each at its own place, or at the descriptor's: how much, or -1. */
static ssize_t copies(int from, off64_t *a, int to, off64_t *b, size_t count) {
  char bytes[16384];
  size_t done = 0;
  while (done < count) {
    size_t piece = count - done < sizeof bytes ? count - done : sizeof bytes;
    ssize_t got = a ? pread(from, bytes, piece, *a) : read(from, bytes, piece);
    ssize_t n = got <= 0 ? got : b ? pwrite(to, bytes, (size_t)got, *b) : write(to, bytes, (size_t)got);
    if (n < 0) return done ? (ssize_t)done : -1;
    if (a) *a += n;
    if (b) *b += n;
    done += (size_t)n;
    if (n == 0 || (size_t)n < piece) break;
  }
  return (ssize_t)done;
}
static bool is_file(const opened_file *f) {
  return f->kind == MEMORY || (f->kind == HOST && !f->waits && !f->directory);
}
EXPORT ssize_t copy_file_range(int from, off64_t *a, int to, off64_t *b, size_t count, unsigned flags) {
  NEXT(copy_file_range);
  OFF(next(from, a, to, b, count, flags));
  if (!is_ours(from) && !is_ours(to)) return next(from, a, to, b, count, flags);
  const opened_file *f = opened_at(from), *g = opened_at(to);
  if (f->kind == NONE || g->kind == NONE) return errno = EBADF, -1;
  if (f->directory || g->directory) return errno = EISDIR, -1;
  if (flags || !is_file(f) || !is_file(g) || f == g) return errno = EINVAL, -1;
  return copies(from, a, to, b, count);
}
/* What has no room would be lost: so a target that does not wait is refused, unless it is a pipe with room. */
EXPORT ssize_t splice(int from, off64_t *a, int to, off64_t *b, size_t count, unsigned flags) {
  NEXT(splice);
  OFF(next(from, a, to, b, count, flags));
  if (!is_ours(from) && !is_ours(to)) return next(from, a, to, b, count, flags);
  const opened_file *f = opened_at(from), *g = opened_at(to);
  bool reads = f->kind == PIPE && !f->out, writes = g->kind == PIPE && !g->in;
  if (f->kind == NONE || g->kind == NONE) return errno = EBADF, -1;
  if ((reads && a) || (writes && b)) return errno = ESPIPE, -1;
  if ((!reads && !writes) || f == g) return errno = EINVAL, -1;
  if (g->nonblock || ((flags & SPLICE_F_NONBLOCK) && !is_file(g))) {
    uncovered("splice", "splice to what does not wait is not covered: refused, in a rerun too");
    return errno = EINVAL, -1;
  }
  if ((flags & SPLICE_F_NONBLOCK) && reads && f->in->filled <= 0) return errno = EAGAIN, -1;
  return copies(from, a, to, b, count < 16384 ? count : 16384);
}

/* Numbers. */
static int refers_too(int fd, int to) {
  if (to >= 0) refer(to, opened_at(fd)->kind == NONE ? NULL : numbers[fd]);
  return to;
}
EXPORT int dup(int fd) {
  NEXT(dup);
  OFF(next(fd));
  if (!is_ours(fd)) return next(fd);
  return fd == ORACLE ? (errno = EBADF, -1) : refers_too(fd, (int)call_on(fd, DETIO_DUP, 0));
}
EXPORT int dup2(int fd, int to) {
  NEXT(dup2);
  OFF(next(fd, to));
  if (!is_ours(fd) || !is_ours(to))
    return is_ours(fd) || is_ours(to) || is_behind(to) ? (errno = EBADF, -1) : next(fd, to);
  if (fd == ORACLE || to == ORACLE || opened_at(fd)->kind == NONE) return errno = EBADF, -1;
  enum kind kind = opened_at(to)->kind;
  bool door = kind == HOST || kind == STREAM || kind == LISTENER || kind == NET;
  if (fd != to && door) (void)close(to); /* the machine keeps doors */
  int r = (int)call_on(fd, DETIO_DUP2, to);
  return r < 0 || fd == to ? r : refers_too(fd, r);
}
EXPORT int dup3(int fd, int to, int flags) {
  NEXT(dup3);
  OFF(next(fd, to, flags));
  if (fd == to || (flags & ~O_CLOEXEC)) return errno = EINVAL, -1;
  int r = dup2(fd, to);
  if (r >= 0 && r < NUMBERS) closes_on_exec[r] = flags & O_CLOEXEC;
  return r;
}
static int set_flags(int fd, long flags) {
  if (flags & O_ASYNC) uncovered("O_ASYNC", "O_ASYNC is not covered: no signal says that a descriptor is ready");
  int r = (int)plain_call(&(detio_call){.kind = DETIO_SETFL, .descriptor = fd,
                                        .flags = (flags & O_APPEND ? DETIO_APPEND : 0) |
                                                 (flags & O_NONBLOCK ? DETIO_NONBLOCK : 0)}, NULL, 0, NULL, 0);
  if (!r) opened_at(fd)->nonblock = flags & O_NONBLOCK;
  return r;
}
static int get_flags(int fd) {
  int r = (int)call_on(fd, DETIO_GETFL, 0);
  return r < 0 ? r : (r & 3) | (r & 4 ? O_APPEND : 0) | (r & 8 ? O_NONBLOCK : 0);
}
static int lock_record(int fd, int what, struct flock *lock) {
  bool waits = what == F_SETLKW || what == F_OFD_SETLKW;
  int how = what == F_SETLKW ? F_SETLK : what == F_OFD_SETLKW ? F_OFD_SETLK : what;
  if (opened_at(fd)->kind != HOST) return errno = EINVAL, -1;
  struct flock asked; /* what is between its fields is by chance */
  memset(&asked, 0, sizeof asked);
  asked.l_type = lock->l_type;
  asked.l_whence = lock->l_whence;
  asked.l_start = lock->l_start;
  asked.l_len = lock->l_len;
  bool gets = what == F_GETLK || what == F_OFD_GETLK, open = gets ? what == F_OFD_GETLK : how == F_OFD_SETLK;
  if (open) asked.l_pid = lock->l_pid; /* else nobody reads it */
  for (;;) {
    int r = (int)ask(&(question){.what = ASK_LOCKED, .at = opened_at(fd)->real, .a = how, .bytes = &asked,
                                 .length = sizeof asked, .room = sizeof asked},
                     gets ? lock : &asked, NULL);
    if (!r || !waits || (errno != EAGAIN && errno != EACCES)) return r;
    if (!wait_a_little()) return -1;
  }
}
int control(int fd, int what, long given) {
  int r;
  if (opened_at(fd)->kind == NONE) return errno = EBADF, -1;
  switch (what) {
  case F_GETFL: return get_flags(fd);
  case F_SETFL: return set_flags(fd, given);
  case F_DUPFD:
  case F_DUPFD_CLOEXEC:
    r = refers_too(fd, (int)call_on(fd, DETIO_DUP_FROM, given));
    if (r >= 0) closes_on_exec[r] = what == F_DUPFD_CLOEXEC;
    return r;
  case F_GETFD: return closes_on_exec[fd] ? FD_CLOEXEC : 0;
  case F_SETFD: return closes_on_exec[fd] = given & FD_CLOEXEC, 0;
  case F_GETLK: case F_SETLK: case F_SETLKW: case F_OFD_GETLK: case F_OFD_SETLK: case F_OFD_SETLKW:
    return lock_record(fd, what, (struct flock *)given);
  case F_GETPIPE_SZ: /* as the machine has it */
    return opened_at(fd)->kind == PIPE && !(opened_at(fd)->in && opened_at(fd)->out) ? 4096 : (errno = EBADF, -1);
  default:
    uncovered("fcntl", "fcntl %d of descriptor %d is not covered: refused, in a rerun too", what, fd);
    return errno = EINVAL, -1;
  }
}
#define CONTROLS(name)                               \
  EXPORT int name(int fd, int what, ...) {           \
    va_list rest;                                    \
    va_start(rest, what);                            \
    long given = va_arg(rest, long);                 \
    va_end(rest);                                    \
    NEXT(name);                                      \
    OFF(next(fd, what, given));                      \
    return is_ours(fd) ? control(fd, what, given) : next(fd, what, given); \
  }
CONTROLS(fcntl)
CONTROLS(fcntl64)
EXPORT int lockf(int fd, int what, off_t count) {
  NEXT(lockf);
  OFF(next(fd, what, count));
  struct flock lock = {.l_type = what == F_ULOCK ? F_UNLCK : what == F_TEST ? F_RDLCK : F_WRLCK, .l_whence = SEEK_CUR,
                       .l_len = count};
  switch (what) {
  case F_TEST:
    if (fcntl(fd, F_GETLK, &lock) < 0) return -1;
    return lock.l_type == F_UNLCK || lock.l_pid == getpid() ? 0 : (errno = EACCES, -1);
  case F_LOCK: return fcntl(fd, F_SETLKW, &lock);
  case F_ULOCK: case F_TLOCK: return fcntl(fd, F_SETLK, &lock);
  default: return errno = EINVAL, -1;
  }
}
EXPORT int lockf64(int fd, int what, off_t count) { return lockf(fd, what, count); }
EXPORT int isfdtype(int fd, int type) {
  struct stat status;
  return fstat(fd, &status) ? -1 : (status.st_mode & S_IFMT) == (mode_t)type;
}

/* Pipes and pairs, in memory. */
static int make_pair(uint32_t kind, int *fds, int flags) {
  detio_reply r;
  make_call(&(detio_call){.kind = kind}, NULL, 0, NULL, 0, &r, NULL, 0);
  opened_file *ends[2];
  if (r.kind != DETIO_PAIR) return fails(r.error);
  for (int i = 0; i < 2; i++) {
    fds[i] = (int)(i ? r.second : r.first);
    ends[i] = new_opened(fds[i], PIPE, -1);
    closes_on_exec[fds[i]] = flags & O_CLOEXEC;
    if (flags & O_NONBLOCK) set_flags(fds[i], O_NONBLOCK);
  }
  join_ends(ends[0], ends[1], kind == DETIO_SOCKETPAIR);
  return 0;
}
EXPORT int pipe(int fds[2]) {
  NEXT(pipe);
  OFF(next(fds));
  return make_pair(DETIO_PIPE, fds, 0);
}
EXPORT int pipe2(int fds[2], int flags) {
  NEXT(pipe2);
  OFF(next(fds, flags));
  if (flags & ~(O_CLOEXEC | O_NONBLOCK)) return errno = EINVAL, -1;
  return make_pair(DETIO_PIPE, fds, flags);
}
EXPORT int socketpair(int domain, int type, int protocol, int fds[2]) {
  NEXT(socketpair);
  OFF(next(domain, type, protocol, fds));
  if ((type & 15) != 1) return new_nets(domain, type, protocol, fds);
  return make_pair(DETIO_SOCKETPAIR, fds, type & (O_NONBLOCK | O_CLOEXEC));
}

/* A file of the host that is mapped is read: privately or for reading alone. The system call is made here, since an
 * allocator may map memory while dlsym runs. */
static void *map(void *at, size_t length, int prot, int flags, int fd, off_t from) {
  long r = KERNEL(SYS_mmap, at, length, prot, flags, fd, from);
  return r < 0 && r > -4096 ? (errno = (int)-r, MAP_FAILED) : (void *)r;
}
EXPORT void *mmap(void *at, size_t length, int prot, int flags, int fd, off_t from) {
  if ((flags & MAP_ANONYMOUS) || !takes_part() || !is_ours(fd)) return map(at, length, prot, flags, fd, from);
  NOTE_CALLER();
  enum kind kind = opened_at(fd)->kind;
  if (kind == NONE) return errno = EBADF, MAP_FAILED;
  if (from & 4095) return errno = EINVAL, MAP_FAILED;
  if ((kind != HOST && kind != MEMORY) || ((flags & MAP_SHARED) && (prot & PROT_WRITE))) {
    uncovered("mmap", "a shared mapping of descriptor %d for writing is not covered: refused, in a rerun too", fd);
    return errno = ENODEV, MAP_FAILED;
  }
  if ((flags & MAP_SHARED) && (get_flags(fd) & O_ACCMODE) != O_RDONLY)
    uncovered("mmap shared",
              "the shared mapping of descriptor %d is a copy: what is written to the file later is not in it", fd);
  char *bytes = map(at, length, PROT_READ | PROT_WRITE, (flags & ~MAP_SHARED) | MAP_PRIVATE | MAP_ANONYMOUS, -1, 0);
  if (bytes == MAP_FAILED) return bytes;
  for (size_t done = 0; done < length;) {
    ssize_t n = pread(fd, bytes + done, length - done, from + (off_t)done);
    if (n < 0) return KERNEL(SYS_munmap, bytes, length), MAP_FAILED;
    if (n == 0) break;
    done += (size_t)n;
  }
  KERNEL(SYS_mprotect, bytes, length, prot);
  return bytes;
}
EXPORT void *mmap64(void *at, size_t length, int prot, int flags, int fd, off_t from) {
  return mmap(at, length, prot, flags, fd, from);
}

/* Standard input is a door; standard output and standard error are places in the table: the door's descriptor of the
 * host. */
static int open_standard(void) {
  detio_reply r;
  make_call(&(detio_call){.kind = DETIO_HOST_OPEN, .choice = DETIO_READ_WRITE}, "detio:0", 7, NULL, 0, &r, NULL, 0);
  if (r.kind != DETIO_NUMBER) /* there is no standard input: its number is taken all the same */
    make_call(&(detio_call){.kind = DETIO_OPEN, .choice = DETIO_READ_WRITE, .flags = DETIO_CREATE}, "/.std", 5, NULL, 0,
              &r, NULL, 0);
  int input = slots[0].opened;
  for (int fd = 1; fd < 3; fd++)
    make_call(&(detio_call){.kind = DETIO_OPEN, .choice = DETIO_READ_WRITE, .flags = DETIO_CREATE}, "/.std", 5, NULL, 0,
              &r, NULL, 0);
  return input;
}
static void name_standard(int input) {
  int64_t kind = asks(ASK_KIND, input, NULL, 0, NULL, 0);
  if (kind >= 0) set_kind(new_opened(0, HOST, input), kind);
  else (void)call_on(0, DETIO_CLOSE, 0);
  for (int fd = 1; fd < 3; fd++) {
    if (asks(ASK_KIND, fd, NULL, 0, NULL, 0) >= 0) new_opened(fd, STANDARD, fd);
    else (void)call_on(fd, DETIO_CLOSE, 0);
  }
}
/* The oracle has the last number. */
static void open_oracle(void) {
  detio_reply r;
  make_call(&(detio_call){.kind = DETIO_HOST_OPEN, .choice = DETIO_READ_ONLY}, "detio:o", 7, NULL, 0, &r, NULL, 0);
  int64_t low = r.first;
  make_call(&(detio_call){.kind = DETIO_DUP_FROM, .descriptor = low, .number = ORACLE}, NULL, 0, NULL, 0, &r, NULL, 0);
  make_call(&(detio_call){.kind = DETIO_CLOSE, .descriptor = low}, NULL, 0, NULL, 0, &r, NULL, 0);
}
/* The numbers of the host in a range are taken, where they are free, by what `empty` is. */
static void take_numbers(int first, int end, int empty) {
  for (int fd = first; fd < end; fd++)
    if (fd != empty && KERNEL(SYS_fcntl, fd, F_GETFD) == -EBADF) KERNEL(SYS_dup3, empty, fd, O_CLOEXEC);
}
/* Each number below NATIVE but the program's is taken at the host, so that its own numbers begin there. */
void begin_descriptors(void) {
  struct rlimit most;
  int input = run.goes_on ? -1 : open_standard();
  open_oracle();
  if (!KERNEL(SYS_getrlimit, RLIMIT_NOFILE, &most) && most.rlim_cur < NATIVE + 128) {
    most.rlim_cur = most.rlim_max < NATIVE + 128 ? most.rlim_max : NATIVE + 128;
    KERNEL(SYS_setrlimit, RLIMIT_NOFILE, &most);
  }
  int lowest = (int)KERNEL(SYS_open, "/dev/null", O_PATH | O_CLOEXEC, 0);
  int empty = (int)KERNEL(SYS_fcntl, lowest, F_DUPFD_CLOEXEC, 3); /* a standard number that is closed stays so */
  KERNEL(SYS_close, lowest);
  take_numbers(3, NATIVE, empty);
  int above = (int)KERNEL(SYS_fcntl, empty, F_DUPFD_CLOEXEC, 3);
  if (above < NATIVE) ends(OURS, "the host has too few descriptors: a run needs more than %d", NATIVE);
  KERNEL(SYS_close, above);
  compare_about();
  if (run.goes_on) take_kept();
  else name_standard(input);
  take_numbers(0, 3, empty);
}
