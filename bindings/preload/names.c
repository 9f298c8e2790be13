/* Names: below --mem those of the tree in memory, below --pass the host's own, and else what the outside answers. A
 * name may begin at a directory that is open. */
#define _GNU_SOURCE
#include "preload.h"

#include <dirent.h>
#include <fcntl.h>
#include <glob.h>
#include <limits.h>
#include <stdio.h>
#include <stdlib.h>
#include <string.h>
#include <sys/random.h>
#include <sys/stat.h>
#include <sys/statvfs.h>
#include <sys/sysmacros.h>
#include <sys/time.h>
#include <sys/vfs.h>
#include <sys/xattr.h>
#include <unistd.h>
#include <utime.h>

static bool is_below(const char *path, const char *prefix) {
  size_t length = strlen(prefix);
  while (length > 1 && prefix[length - 1] == '/') length--;
  return !strncmp(path, prefix, length) && (path[length] == '/' || !path[length] || length == 1);
}
/* The name in the tree in memory of a path below --mem, or NULL. */
const char *in_memory(const char *path) {
  if (!run.memory || !path || !is_below(path, run.memory)) return NULL;
  const char *rest = path + strlen(run.memory);
  while (rest > path && rest[-1] == '/') rest--;
  return *rest ? rest : "/";
}
enum where where_is(const char *path) {
  if (in_memory(path)) return IN_RUN;
  for (size_t i = 0; i < run.passes; i++)
    if (is_below(path, run.passed[i])) return PASSED;
  return OUTSIDE;
}
bool asked_of_us(const char *path) { return path && where_is(path) != PASSED; }

/* The directory of the host that a path begins at. */
static int base(int at, const char *path) { return *path == '/' ? AT_FDCWD : real_of(at); }
/* A call that nobody below --mem has. */
static int not_there(void) { return errno = EPERM, -1; }

/* `name` is a function of one path (or of a path from a directory); `given` passes on what it was given; `memory` is
 * its result in the tree in memory at `m`, and `asked` the question to the outside. */
#define ON_PATH(type, name, arguments, given, path, memory, asked) \
  EXPORT type name arguments {                                     \
    NEXT(name);                                                    \
    OFF(next given);                                               \
    if (!asked_of_us(path)) return next given;                     \
    const char *m = in_memory(path);                               \
    if (m) return (type)(memory);                                  \
    return (type)ask(&(question)asked, NULL, NULL);                \
  }
#define Q(...) {__VA_ARGS__}

static int64_t in_tree(uint32_t kind, const char *m) {
  return plain_call(&(detio_call){.kind = kind}, m, strlen(m), NULL, 0);
}
static int64_t two_in_tree(uint32_t kind, const char *one, const char *other) {
  detio_reply r;
  if (!one || !other) return errno = EXDEV, -1;
  if (make_call(&(detio_call){.kind = kind}, one, strlen(one), other, strlen(other), &r, NULL, 0))
    return errno = EINVAL, -1;
  return r.kind == DETIO_FAILURE ? fails(r.error) : 0;
}
/* Whether a name is there in the tree in memory. */
static int is_there(const char *m) {
  int fd = (int)plain_call(&(detio_call){.kind = DETIO_OPEN}, m, strlen(m), NULL, 0);
  if (fd < 0) return errno == EISDIR ? 0 : -1;
  (void)plain_call(&(detio_call){.kind = DETIO_CLOSE, .descriptor = fd}, NULL, 0, NULL, 0);
  return 0;
}

ON_PATH(int, unlink, (const char *p), (p), p, in_tree(DETIO_UNLINK, m),
        Q(.what = ASK_UNLINK, .at = AT_FDCWD, .path = p))
ON_PATH(int, rmdir, (const char *p), (p), p, in_tree(DETIO_RMDIR, m),
        Q(.what = ASK_UNLINK, .at = AT_FDCWD, .path = p, .a = AT_REMOVEDIR))
ON_PATH(int, unlinkat, (int at, const char *p, int how), (at, p, how), p,
        in_tree(how & AT_REMOVEDIR ? DETIO_RMDIR : DETIO_UNLINK, m),
        Q(.what = ASK_UNLINK, .at = base(at, p), .path = p, .a = how))
EXPORT int remove(const char *path) {
  NEXT(remove);
  OFF(next(path));
  if (!unlink(path)) return 0;
  return errno == EISDIR || errno == EPERM ? rmdir(path) : -1;
}
ON_PATH(int, mkdir, (const char *p, mode_t mode), (p, mode), p, in_tree(DETIO_MKDIR, m),
        Q(.what = ASK_MKDIR, .at = AT_FDCWD, .path = p, .a = mode))
ON_PATH(int, mkdirat, (int at, const char *p, mode_t mode), (at, p, mode), p, in_tree(DETIO_MKDIR, m),
        Q(.what = ASK_MKDIR, .at = base(at, p), .path = p, .a = mode))
ON_PATH(int, mknod, (const char *p, mode_t mode, dev_t d), (p, mode, d), p, not_there(),
        Q(.what = ASK_MKNOD, .at = AT_FDCWD, .path = p, .a = mode, .b = (int64_t)d))
ON_PATH(int, mkfifo, (const char *p, mode_t mode), (p, mode), p, not_there(),
        Q(.what = ASK_MKNOD, .at = AT_FDCWD, .path = p, .a = S_IFIFO | mode))
ON_PATH(int, mknodat, (int at, const char *p, mode_t mode, dev_t d), (at, p, mode, d), p, not_there(),
        Q(.what = ASK_MKNOD, .at = base(at, p), .path = p, .a = mode, .b = (int64_t)d))
ON_PATH(int, mkfifoat, (int at, const char *p, mode_t mode), (at, p, mode), p, not_there(),
        Q(.what = ASK_MKNOD, .at = base(at, p), .path = p, .a = S_IFIFO | mode))

EXPORT int renameat2(int a, const char *p, int b, const char *q, unsigned how) {
  NEXT(renameat2);
  OFF(next(a, p, b, q, how));
  if (!asked_of_us(p) && !asked_of_us(q)) return next(a, p, b, q, how);
  if (in_memory(p) || in_memory(q)) return (int)two_in_tree(DETIO_RENAME, in_memory(p), in_memory(q));
  return (int)ask(&(question){.what = ASK_RENAME, .at = base(a, p), .path = p, .at_second = base(b, q), .second = q,
                              .b = how}, NULL, NULL);
}
EXPORT int rename(const char *p, const char *q) {
  NEXT(rename);
  OFF(next(p, q));
  return renameat2(AT_FDCWD, p, AT_FDCWD, q, 0);
}
EXPORT int renameat(int a, const char *p, int b, const char *q) {
  NEXT(renameat);
  OFF(next(a, p, b, q));
  return renameat2(a, p, b, q, 0);
}
EXPORT int linkat(int a, const char *p, int b, const char *q, int how) {
  NEXT(linkat);
  OFF(next(a, p, b, q, how));
  if (!asked_of_us(p) && !asked_of_us(q)) return next(a, p, b, q, how);
  if (in_memory(p) || in_memory(q)) return (int)two_in_tree(DETIO_LINK, in_memory(p), in_memory(q));
  return (int)ask(&(question){.what = ASK_LINK, .at = base(a, p), .path = p, .at_second = base(b, q), .second = q,
                              .b = how}, NULL, NULL);
}
EXPORT int link(const char *p, const char *q) {
  NEXT(link);
  OFF(next(p, q));
  return linkat(AT_FDCWD, p, AT_FDCWD, q, 0);
}
ON_PATH(int, symlinkat, (const char *to, int at, const char *p), (to, at, p), p, not_there(),
        Q(.what = ASK_SYMLINK, .at = base(at, p), .path = to, .second = p))
ON_PATH(int, symlink, (const char *to, const char *p), (to, p), p, not_there(),
        Q(.what = ASK_SYMLINK, .at = AT_FDCWD, .path = to, .second = p))

ON_PATH(int, faccessat, (int at, const char *p, int how, int f), (at, p, how, f), p, is_there(m),
        Q(.what = ASK_ACCESS, .at = base(at, p), .path = p, .a = how, .b = f))
ON_PATH(int, access, (const char *p, int how), (p, how), p, is_there(m),
        Q(.what = ASK_ACCESS, .at = AT_FDCWD, .path = p, .a = how))
EXPORT int eaccess(const char *p, int how) {
  NEXT(eaccess);
  OFF(next(p, how));
  return faccessat(AT_FDCWD, p, how, AT_EACCESS);
}
EXPORT int euidaccess(const char *p, int how) {
  NEXT(euidaccess);
  OFF(next(p, how));
  return faccessat(AT_FDCWD, p, how, AT_EACCESS);
}
ON_PATH(int, fchmodat, (int at, const char *p, mode_t mode, int f), (at, p, mode, f), p, is_there(m),
        Q(.what = ASK_CHMOD, .at = base(at, p), .path = p, .a = mode))
ON_PATH(int, chmod, (const char *p, mode_t mode), (p, mode), p, is_there(m),
        Q(.what = ASK_CHMOD, .at = AT_FDCWD, .path = p, .a = mode))
#define OWNERS(user, group) ((int64_t)((uint64_t)(uint32_t)(group) << 32 | (uint32_t)(user)))
ON_PATH(int, fchownat, (int at, const char *p, uid_t u, gid_t g, int f), (at, p, u, g, f), p, is_there(m),
        Q(.what = ASK_CHOWN, .at = base(at, p), .path = p, .a = OWNERS(u, g), .b = f))
ON_PATH(int, chown, (const char *p, uid_t u, gid_t g), (p, u, g), p, is_there(m),
        Q(.what = ASK_CHOWN, .at = AT_FDCWD, .path = p, .a = OWNERS(u, g)))
ON_PATH(int, lchown, (const char *p, uid_t u, gid_t g), (p, u, g), p, is_there(m),
        Q(.what = ASK_CHOWN, .at = AT_FDCWD, .path = p, .a = OWNERS(u, g), .b = AT_SYMLINK_NOFOLLOW))
ON_PATH(int, truncate, (const char *p, off_t size), (p, size), p, not_there(),
        Q(.what = ASK_TRUNCATE, .at = AT_FDCWD, .path = p, .a = size))
EXPORT int truncate64(const char *p, off_t size) { return truncate(p, size); }

/* Times of files. */
ON_PATH(int, utimensat, (int at, const char *p, const struct timespec t[2], int f), (at, p, t, f), p, is_there(m),
        Q(.what = ASK_UTIMES, .at = base(at, p), .path = p, .a = f, .bytes = t, .length = t ? 2 * sizeof *t : 0))
static int set_times(const char *p, const struct timeval t[2], int f) {
  struct timespec times[2];
  for (int i = 0; t && i < 2; i++) times[i] = (struct timespec){t[i].tv_sec, t[i].tv_usec * 1000};
  return utimensat(AT_FDCWD, p, t ? times : NULL, f);
}
EXPORT int utimes(const char *p, const struct timeval t[2]) { return set_times(p, t, 0); }
EXPORT int lutimes(const char *p, const struct timeval t[2]) { return set_times(p, t, AT_SYMLINK_NOFOLLOW); }
EXPORT int futimesat(int at, const char *p, const struct timeval t[2]) {
  NEXT(futimesat);
  OFF(next(at, p, t));
  if (!p) return futimes(at, t);
  struct timespec of[2];
  for (int i = 0; t && i < 2; i++) of[i] = (struct timespec){t[i].tv_sec, t[i].tv_usec * 1000};
  return utimensat(at, p, t ? of : NULL, 0);
}
EXPORT int utime(const char *p, const struct utimbuf *t) {
  struct timespec times[2] = {{t ? t->actime : 0, 0}, {t ? t->modtime : 0, 0}};
  return utimensat(AT_FDCWD, p, t ? times : NULL, 0);
}
EXPORT int futimens(int fd, const struct timespec t[2]) {
  NEXT(futimens);
  OFF(next(fd, t));
  if (!is_ours(fd)) return next(fd, t);
  if (opened_at(fd)->kind != HOST) return opened_at(fd)->kind == NONE ? (errno = EBADF, -1) : 0;
  return (int)ask(&(question){.what = ASK_UTIMES, .at = real_of(fd), .bytes = t, .length = t ? 2 * sizeof *t : 0}, NULL,
                  NULL);
}
EXPORT int futimes(int fd, const struct timeval t[2]) {
  struct timespec times[2];
  for (int i = 0; t && i < 2; i++) times[i] = (struct timespec){t[i].tv_sec, t[i].tv_usec * 1000};
  return futimens(fd, t ? times : NULL);
}

/* What a file is. */
static int stat_memory(int fd, struct stat *to) {
  detio_reply r;
  make_call(&(detio_call){.kind = DETIO_FSTAT, .descriptor = fd}, NULL, 0, NULL, 0, &r, NULL, 0);
  if (r.kind == DETIO_FAILURE) return fails(r.error);
  memset(to, 0, sizeof *to);
  to->st_mode = (opened_at(fd)->kind == SOCKET ? S_IFSOCK
                 : r.first == 1                ? S_IFREG
                 : r.first == 2                ? S_IFIFO
                                               : S_IFSOCK) |
                0600;
  to->st_size = (off_t)r.count;
  to->st_nlink = r.links;
  to->st_blksize = 4096;
  to->st_blocks = (to->st_size + 511) / 512;
  return 0;
}
static int stat_tree(const char *m, struct stat *to) {
  int fd = (int)plain_call(&(detio_call){.kind = DETIO_OPEN}, m, strlen(m), NULL, 0);
  if (fd >= 0) {
    int r = stat_memory(fd, to);
    (void)plain_call(&(detio_call){.kind = DETIO_CLOSE, .descriptor = fd}, NULL, 0, NULL, 0);
    return r;
  }
  if (errno != EISDIR) return -1;
  memset(to, 0, sizeof *to);
  to->st_mode = S_IFDIR | 0700;
  to->st_nlink = 2;
  to->st_blksize = 4096;
  return 0;
}
EXPORT int fstat(int fd, struct stat *to) {
  NEXT(fstat);
  OFF(next(fd, to));
  if (!is_ours(fd)) return next(fd, to);
  const opened_file *f = opened_at(fd);
  if (f->kind == NONE) return errno = EBADF, -1;
  if (f->kind == MEMORY || f->kind == PIPE || f->kind == SOCKET) return stat_memory(fd, to);
  return (int)asks(ASK_FSTAT, f->real, NULL, 0, to, sizeof *to);
}
EXPORT int fstat64(int fd, struct stat64 *to) { return fstat(fd, (struct stat *)to); }
EXPORT int fstatat(int at, const char *p, struct stat *to, int f) {
  NEXT(fstatat);
  OFF(next(at, p, to, f));
  if (!p) return errno = EFAULT, -1;
  if ((f & AT_EMPTY_PATH) && !*p) return at == AT_FDCWD ? fstatat(at, ".", to, 0) : fstat(at, to);
  if (!asked_of_us(p)) return next(at, p, to, f);
  if (in_memory(p)) return stat_tree(in_memory(p), to);
  if (number_named(p) >= 0 && !(f & AT_SYMLINK_NOFOLLOW)) return fstat(number_named(p), to);
  return (int)asks(ASK_STAT, base(at, p), p, f & ~AT_EMPTY_PATH, to, sizeof *to);
}
EXPORT int fstatat64(int at, const char *p, struct stat64 *to, int f) { return fstatat(at, p, (struct stat *)to, f); }
EXPORT int stat(const char *p, struct stat *to) {
  NEXT(stat);
  OFF(next(p, to));
  return fstatat(AT_FDCWD, p, to, 0);
}
EXPORT int lstat(const char *p, struct stat *to) {
  NEXT(lstat);
  OFF(next(p, to));
  return fstatat(AT_FDCWD, p, to, AT_SYMLINK_NOFOLLOW);
}
EXPORT int stat64(const char *p, struct stat64 *to) { return stat(p, (struct stat *)to); }
EXPORT int lstat64(const char *p, struct stat64 *to) { return lstat(p, (struct stat *)to); }
EXPORT int __xstat(int v, const char *p, struct stat *to) { return (void)v, stat(p, to); }
EXPORT int __lxstat(int v, const char *p, struct stat *to) { return (void)v, lstat(p, to); }
EXPORT int __fxstat(int v, int fd, struct stat *to) { return (void)v, fstat(fd, to); }
EXPORT int __fxstatat(int v, int at, const char *p, struct stat *to, int f) { return (void)v, fstatat(at, p, to, f); }
EXPORT int __xstat64(int v, const char *p, struct stat64 *to) { return (void)v, stat64(p, to); }
EXPORT int __lxstat64(int v, const char *p, struct stat64 *to) { return (void)v, lstat64(p, to); }
EXPORT int __fxstat64(int v, int fd, struct stat64 *to) { return (void)v, fstat64(fd, to); }
EXPORT int __fxstatat64(int v, int at, const char *p, struct stat64 *to, int f) {
  return (void)v, fstatat64(at, p, to, f);
}
EXPORT int statx(int at, const char *p, int f, unsigned mask, struct statx *to) {
  NEXT(statx);
  OFF(next(at, p, f, mask, to));
  struct stat s;
  if (!p || !to) return errno = EFAULT, -1;
  if (*p && !asked_of_us(p)) return next(at, p, f, mask, to);
  if (!*p && at != AT_FDCWD && !is_ours(at)) return next(at, p, f, mask, to);
  if (fstatat(at, p, &s, f & (AT_EMPTY_PATH | AT_SYMLINK_NOFOLLOW))) return -1;
  memset(to, 0, sizeof *to);
  to->stx_mask = STATX_BASIC_STATS;
  to->stx_blksize = (uint32_t)s.st_blksize;
  to->stx_nlink = (uint32_t)s.st_nlink;
  to->stx_uid = s.st_uid;
  to->stx_gid = s.st_gid;
  to->stx_mode = (uint16_t)s.st_mode;
  to->stx_ino = s.st_ino;
  to->stx_size = (uint64_t)s.st_size;
  to->stx_blocks = (uint64_t)s.st_blocks;
  to->stx_atime = (struct statx_timestamp){.tv_sec = s.st_atim.tv_sec, .tv_nsec = (uint32_t)s.st_atim.tv_nsec};
  to->stx_mtime = (struct statx_timestamp){.tv_sec = s.st_mtim.tv_sec, .tv_nsec = (uint32_t)s.st_mtim.tv_nsec};
  to->stx_ctime = (struct statx_timestamp){.tv_sec = s.st_ctim.tv_sec, .tv_nsec = (uint32_t)s.st_ctim.tv_nsec};
  to->stx_rdev_major = major(s.st_rdev);
  to->stx_rdev_minor = minor(s.st_rdev);
  to->stx_dev_major = major(s.st_dev);
  to->stx_dev_minor = minor(s.st_dev);
  return 0;
}
EXPORT int statfs(const char *p, struct statfs *to) {
  NEXT(statfs);
  OFF(next(p, to));
  if (!asked_of_us(p)) return next(p, to);
  return in_memory(p) ? not_there() : (int)asks(ASK_STATFS, AT_FDCWD, p, 0, to, sizeof *to);
}
EXPORT int statfs64(const char *p, struct statfs64 *to) { return statfs(p, (struct statfs *)to); }
EXPORT int fstatfs(int fd, struct statfs *to) {
  NEXT(fstatfs);
  OFF(next(fd, to));
  if (!is_ours(fd)) return next(fd, to);
  enum kind kind = opened_at(fd)->kind;
  if (kind == NONE) return errno = EBADF, -1;
  if (kind == HOST) return (int)asks(ASK_FSTATFS, real_of(fd), NULL, 0, to, sizeof *to);
  uncovered("fstatfs", "fstatfs of what is no file of the host is not covered: refused, in a rerun too");
  return errno = ENOSYS, -1;
}
EXPORT int fstatfs64(int fd, struct statfs64 *to) { return fstatfs(fd, (struct statfs *)to); }
static void as_statvfs(const struct statfs *from, struct statvfs *to) {
  memset(to, 0, sizeof *to);
  to->f_bsize = (unsigned long)from->f_bsize;
  to->f_frsize = (unsigned long)(from->f_frsize ? from->f_frsize : from->f_bsize);
  to->f_blocks = from->f_blocks;
  to->f_bfree = from->f_bfree;
  to->f_bavail = from->f_bavail;
  to->f_files = from->f_files;
  to->f_ffree = to->f_favail = from->f_ffree;
  to->f_namemax = (unsigned long)from->f_namelen;
}
EXPORT int statvfs(const char *p, struct statvfs *to) {
  NEXT(statvfs);
  OFF(next(p, to));
  struct statfs from;
  if (!asked_of_us(p)) return next(p, to);
  if (statfs(p, &from)) return -1;
  as_statvfs(&from, to);
  return 0;
}
EXPORT int statvfs64(const char *p, struct statvfs64 *to) { return statvfs(p, (struct statvfs *)to); }
EXPORT int fstatvfs(int fd, struct statvfs *to) {
  NEXT(fstatvfs);
  OFF(next(fd, to));
  struct statfs from;
  if (!is_ours(fd)) return next(fd, to);
  if (fstatfs(fd, &from)) return -1;
  as_statvfs(&from, to);
  return 0;
}
EXPORT int fstatvfs64(int fd, struct statvfs64 *to) { return fstatvfs(fd, (struct statvfs *)to); }

/* Attributes. */
static ssize_t attribute(enum ask what, int at, const char *p, const char *name, void *to, size_t room, int nofollow) {
  if (room > PIECE) room = PIECE;
  return ask(
      &(question){.what = what, .at = at, .path = p, .second = name, .a = (int64_t)room, .b = nofollow, .room = room},
      to, NULL);
}
#define ATTRIBUTE(name, nofollow)                                                             \
  EXPORT ssize_t name(const char *p, const char *key, void *to, size_t room) {                \
    NEXT(name);                                                                               \
    OFF(next(p, key, to, room));                                                              \
    if (!asked_of_us(p)) return next(p, key, to, room);                                       \
    return in_memory(p) ? (errno = ENOTSUP, -1) : attribute(ASK_GETXATTR, AT_FDCWD, p, key, to, room, nofollow); \
  }
ATTRIBUTE(getxattr, 0)
ATTRIBUTE(lgetxattr, 1)
#define ATTRIBUTES(name, nofollow)                                                            \
  EXPORT ssize_t name(const char *p, char *to, size_t room) {                                 \
    NEXT(name);                                                                               \
    OFF(next(p, to, room));                                                                   \
    if (!asked_of_us(p)) return next(p, to, room);                                            \
    return in_memory(p) ? (errno = ENOTSUP, -1) : attribute(ASK_LISTXATTR, AT_FDCWD, p, NULL, to, room, nofollow); \
  }
ATTRIBUTES(listxattr, 0)
ATTRIBUTES(llistxattr, 1)
EXPORT ssize_t fgetxattr(int fd, const char *key, void *to, size_t room) {
  NEXT(fgetxattr);
  OFF(next(fd, key, to, room));
  if (!is_ours(fd)) return next(fd, key, to, room);
  return opened_at(fd)->kind != HOST ? (errno = ENOTSUP, -1)
                                     : attribute(ASK_FGETXATTR, real_of(fd), NULL, key, to, room, 0);
}
EXPORT ssize_t flistxattr(int fd, char *to, size_t room) {
  NEXT(flistxattr);
  OFF(next(fd, to, room));
  if (!is_ours(fd)) return next(fd, to, room);
  return opened_at(fd)->kind != HOST ? (errno = ENOTSUP, -1)
                                     : attribute(ASK_FLISTXATTR, real_of(fd), NULL, NULL, to, room, 0);
}

/* Of a link there is no mode to change. */
EXPORT int lchmod(const char *p, mode_t mode) {
  NEXT(lchmod);
  OFF(next(p, mode));
  struct stat status;
  if (lstat(p, &status)) return -1;
  return S_ISLNK(status.st_mode) ? (errno = EOPNOTSUPP, -1) : chmod(p, mode);
}

/* Where we are. */
EXPORT int chdir(const char *p) {
  NEXT(chdir);
  OFF(next(p));
  return (int)asks(ASK_CHDIR, AT_FDCWD, p, 0, NULL, 0);
}
EXPORT int fchdir(int fd) {
  NEXT(fchdir);
  OFF(next(fd));
  if (!is_ours(fd)) return next(fd);
  return opened_at(fd)->kind == NONE ? (errno = EBADF, -1) : (int)asks(ASK_FCHDIR, real_of(fd), NULL, 0, NULL, 0);
}
EXPORT char *getcwd(char *to, size_t room) {
  NEXT(getcwd);
  OFF(next(to, room));
  char path[PATH_MAX];
  if (to && !room) return errno = EINVAL, NULL;
  if (asks(ASK_GETCWD, AT_FDCWD, NULL, 0, path, sizeof path) < 0) return NULL;
  if ((to || room) && strlen(path) >= room) return errno = ERANGE, NULL;
  if (!to) to = malloc(room ? room : strlen(path) + 1);
  return to ? strcpy(to, path) : NULL;
}
EXPORT char *get_current_dir_name(void) { return getcwd(NULL, 0); }
EXPORT char *__getcwd_chk(char *to, size_t room, size_t has) {
  if (room > has) abort();
  return getcwd(to, room);
}
EXPORT char *getwd(char *to) { return to ? getcwd(to, PATH_MAX) : (errno = EINVAL, NULL); }
EXPORT char *__getwd_chk(char *to, size_t has) { return __getcwd_chk(to, PATH_MAX < has ? PATH_MAX : has, has); }

static ssize_t read_link(int at, const char *p, char *to, size_t room) {
  char path[PATH_MAX];
  size_t length = 0;
  if (in_memory(p)) return errno = EINVAL, -1;
  bool host = number_named(p) >= 0 && opened_at(number_named(p))->kind == HOST;
  if (ask(&(question){.what = ASK_READLINK, .at = host ? real_of(number_named(p)) : at, .path = p, .a = host,
                      .room = sizeof path}, path, &length) < 0) return -1;
  if (length > room) length = room;
  memcpy(to, path, length);
  return (ssize_t)length;
}
EXPORT ssize_t readlinkat(int at, const char *p, char *to, size_t room) {
  NEXT(readlinkat);
  OFF(next(at, p, to, room));
  return asked_of_us(p) ? read_link(base(at, p), p, to, room) : next(at, p, to, room);
}
EXPORT ssize_t readlink(const char *p, char *to, size_t room) {
  NEXT(readlink);
  OFF(next(p, to, room));
  return asked_of_us(p) ? read_link(AT_FDCWD, p, to, room) : next(p, to, room);
}
EXPORT ssize_t __readlink_chk(const char *p, char *to, size_t room, size_t has) {
  if (room > has) abort();
  return readlink(p, to, room);
}
EXPORT ssize_t __readlinkat_chk(int at, const char *p, char *to, size_t room, size_t has) {
  if (room > has) abort();
  return readlinkat(at, p, to, room);
}

/* One more name after a path that has no links: in `path`, which holds it. */
static int add_name(char *path, const char *name, size_t length) {
  size_t have = strlen(path);
  if (length == 1 && name[0] == '.') return 0;
  if (length == 2 && name[0] == '.' && name[1] == '.') {
    char *last = strrchr(path, '/');
    *last = 0;
    return 0;
  }
  if (have + length + 2 > PATH_MAX) return errno = ENAMETOOLONG, -1;
  path[have] = '/';
  memcpy(path + have + 1, name, length);
  path[have + 1 + length] = 0;
  return 0;
}
static bool is_no_directory(const char *path) {
  struct stat s;
  return !stat(path, &s) && !S_ISDIR(s.st_mode);
}
/* The path without links, as realpath has it: 0, or -1 with errno. */
static int resolve(const char *given, char *path) {
  char rest[PATH_MAX], link[PATH_MAX];
  int links = 0;
  if (!*given) return errno = ENOENT, -1;
  if (strlen(given) >= PATH_MAX) return errno = ENAMETOOLONG, -1;
  strcpy(rest, given);
  if (*given == '/') *path = 0;
  else if (!getcwd(path, PATH_MAX)) return -1;
  if (!strcmp(path, "/")) *path = 0;
  for (char *at = rest; *at;) {
    while (*at == '/') at++;
    size_t length = strcspn(at, "/");
    if (!length) break;
    if (add_name(path, at, length)) return -1;
    at += length;
    if (!*path) continue;
    ssize_t n = readlink(path, link, sizeof link - 1);
    if (n < 0 && errno != EINVAL) return -1;
    if (n < 0 && *at && !at[strspn(at, "/.")] && is_no_directory(path)) return errno = ENOTDIR, -1;
    if (n < 0) continue;
    if (++links > 40) return errno = ELOOP, -1;
    if ((size_t)n + strlen(at) + 1 > PATH_MAX) return errno = ENAMETOOLONG, -1;
    memmove(rest + n, at, strlen(at) + 1);
    memcpy(rest, link, (size_t)n);
    *strrchr(path, '/') = 0;
    if (*rest == '/') *path = 0;
    at = rest;
  }
  if (!*path) strcpy(path, "/");
  return 0;
}
EXPORT char *realpath(const char *p, char *to) {
  NEXT(realpath);
  OFF(next(p, to));
  char path[PATH_MAX];
  int kept = errno;
  if (!p) return errno = EINVAL, NULL;
  if (!asked_of_us(p)) return next(p, to);
  if (resolve(p, path)) return NULL;
  errno = kept;
  return to ? strcpy(to, path) : strdup(path);
}
EXPORT char *__realpath_chk(const char *p, char *to, size_t has) {
  if (has < PATH_MAX) abort();
  return realpath(p, to);
}
EXPORT char *canonicalize_file_name(const char *p) { return realpath(p, NULL); }

/* New names, by chance. */
static int make_named(char *name, int suffix, int how, bool directory) {
  static const char letters[] = "abcdefghijklmnopqrstuvwxyz012345";
  size_t length = strlen(name);
  if (length < 6 + (size_t)suffix || memcmp(name + length - 6 - suffix, "XXXXXX", 6)) return errno = EINVAL, -1;
  for (int tries = 0; tries < 100; tries++) {
    unsigned char random[6];
    if (getrandom(random, sizeof random, 0) < 0) return -1;
    for (int i = 0; i < 6; i++) name[length - 6 - (size_t)suffix + (size_t)i] = letters[random[i] & 31];
    int fd = directory ? mkdir(name, 0700) : open(name, how | O_RDWR | O_CREAT | O_EXCL, 0600);
    if (fd >= 0 || errno != EEXIST) return fd;
  }
  return -1;
}
EXPORT int mkostemps(char *name, int suffix, int how) {
  NEXT(mkostemps);
  OFF(next(name, suffix, how));
  return make_named(name, suffix, how & ~O_ACCMODE, false);
}
EXPORT int mkostemps64(char *name, int suffix, int how) { return mkostemps(name, suffix, how); }
EXPORT int mkstemp(char *name) { return mkostemps(name, 0, 0); }
EXPORT int mkstemp64(char *name) { return mkostemps(name, 0, 0); }
EXPORT int mkostemp(char *name, int how) { return mkostemps(name, 0, how); }
EXPORT int mkostemp64(char *name, int how) { return mkostemps(name, 0, how); }
EXPORT int mkstemps(char *name, int suffix) { return mkostemps(name, suffix, 0); }
EXPORT int mkstemps64(char *name, int suffix) { return mkostemps(name, suffix, 0); }
EXPORT char *mkdtemp(char *name) {
  NEXT(mkdtemp);
  OFF(next(name));
  return make_named(name, 0, 0, true) ? NULL : name;
}

/* Directories that are read. */
#define LISTING 0xd1d1d1d1d1d1d1d1u
typedef struct {
  uint64_t mark;
  int fd;
  int64_t have, at;
  int64_t seen, to; /* the place behind the last name; and where to go before the next, or -1 */
  struct dirent entry;
  uint8_t bytes[16384];
} listing;
static bool is_listing(DIR *d) { return ((listing *)d)->mark == LISTING; }
EXPORT DIR *fdopendir(int fd) {
  NEXT(fdopendir);
  OFF(next(fd));
  if (!is_ours(fd)) return next(fd);
  if (!opened_at(fd)->directory) return errno = opened_at(fd)->kind == NONE ? EBADF : ENOTDIR, NULL;
  listing *l = malloc(sizeof *l);
  if (!l) return NULL;
  memset(l, 0, offsetof(listing, bytes));
  l->mark = LISTING;
  l->fd = fd;
  l->to = -1;
  return (DIR *)l;
}
EXPORT DIR *opendir(const char *p) {
  NEXT(opendir);
  OFF(next(p));
  if (!asked_of_us(p)) return next(p);
  if (in_memory(p)) {
    uncovered("opendir", "a listing of a directory below --mem is not covered: refused, in a rerun too");
    return errno = ENOSYS, NULL;
  }
  int fd = opens_at(AT_FDCWD, p, O_RDONLY | O_DIRECTORY | O_CLOEXEC, 0);
  return fd < 0 ? NULL : fdopendir(fd);
}
/* More names, where all were read: whether there are any. */
static bool more(listing *l) {
  if (l->at < l->have) return true;
  l->at = 0;
  size_t length = 0;
  l->have = ask(&(question){.what = ASK_LISTING, .at = real_of(l->fd), .a = l->to, .room = sizeof l->bytes}, l->bytes,
                &length);
  l->to = -1;
  return l->have > 0;
}
EXPORT struct dirent *readdir(DIR *d) {
  NEXT(readdir);
  OFF(next(d));
  if (!is_listing(d)) return next(d);
  listing *l = (listing *)d;
  int kept = errno;
  if (!more(l)) return l->have < 0 ? NULL : (errno = kept, NULL);
  memset(&l->entry, 0, sizeof l->entry);
  memcpy(&l->entry.d_ino, l->bytes + l->at, 8);
  memcpy(&l->seen, l->bytes + l->at + 8, 8);
  l->entry.d_type = l->bytes[l->at + 16];
  strncpy(l->entry.d_name, (char *)l->bytes + l->at + 17, sizeof l->entry.d_name - 1);
  l->entry.d_reclen = sizeof l->entry;
  l->entry.d_off = l->seen;
  l->at += (int64_t)strlen(l->entry.d_name) + 18;
  errno = kept;
  return &l->entry;
}
EXPORT struct dirent64 *readdir64(DIR *d) { return (struct dirent64 *)readdir(d); }
static int read_entry(DIR *d, struct dirent *to, struct dirent **result) {
  int kept = errno;
  errno = 0;
  struct dirent *it = readdir(d);
  int error = errno;
  errno = kept;
  if (it) *to = *it;
  *result = it ? to : NULL;
  return it ? 0 : error;
}
EXPORT int readdir_r(DIR *d, struct dirent *to, struct dirent **result) { return read_entry(d, to, result); }
EXPORT int readdir64_r(DIR *d, struct dirent64 *to, struct dirent64 **result) {
  return read_entry(d, (struct dirent *)to, (struct dirent **)result);
}
EXPORT void seekdir(DIR *d, long to) {
  NEXT(seekdir);
  if (!takes_part() || !is_listing(d)) {
    next(d, to);
    return;
  }
  ((listing *)d)->seen = ((listing *)d)->to = to;
  ((listing *)d)->at = ((listing *)d)->have = 0;
}
EXPORT void rewinddir(DIR *d) {
  NEXT(rewinddir);
  if (takes_part() && is_listing(d)) seekdir(d, 0);
  else next(d);
}
EXPORT long telldir(DIR *d) {
  NEXT(telldir);
  OFF(next(d));
  return is_listing(d) ? (long)((listing *)d)->seen : next(d);
}
EXPORT int dirfd(DIR *d) {
  NEXT(dirfd);
  OFF(next(d));
  return is_listing(d) ? ((listing *)d)->fd : next(d);
}
EXPORT int closedir(DIR *d) {
  NEXT(closedir);
  OFF(next(d));
  if (!is_listing(d)) return next(d);
  int r = close(((listing *)d)->fd);
  free(d);
  return r;
}
typedef int takes_entry(const struct dirent *);
typedef int orders_entries(const struct dirent **, const struct dirent **);
static int scan(DIR *d, struct dirent ***list, takes_entry *takes, orders_entries *order) {
  struct dirent **found = NULL;
  int count = 0, room = 0;
  if (!d) return -1;
  for (struct dirent *it; (it = readdir(d)) != NULL;) {
    if (takes && !takes(it)) continue;
    if (count == room) found = realloc(found, (size_t)(room = 2 * room + 16) * sizeof *found);
    found[count] = malloc(sizeof *it);
    *found[count++] = *it;
  }
  closedir(d);
  if (order && count) qsort(found, (size_t)count, sizeof *found, (int (*)(const void *, const void *))order);
  *list = found;
  return count;
}
EXPORT int scandir(const char *p, struct dirent ***list, takes_entry *takes, orders_entries *order) {
  NEXT(scandir);
  OFF(next(p, list, takes, order));
  return asked_of_us(p) ? scan(opendir(p), list, takes, order) : next(p, list, takes, order);
}
typedef int takes_entry64(const struct dirent64 *);
typedef int orders_entries64(const struct dirent64 **, const struct dirent64 **);
EXPORT int scandir64(const char *p, struct dirent64 ***list, takes_entry64 *takes, orders_entries64 *order) {
  return scandir(p, (struct dirent ***)list, (takes_entry *)takes, (orders_entries *)order);
}
EXPORT int scandirat(int at, const char *p, struct dirent ***list, takes_entry *takes, orders_entries *order) {
  NEXT(scandirat);
  OFF(next(at, p, list, takes, order));
  int fd = openat(at, p, O_RDONLY | O_DIRECTORY | O_CLOEXEC);
  return fd < 0 ? -1 : scan(fdopendir(fd), list, takes, order);
}
EXPORT int scandirat64(int at, const char *p, struct dirent64 ***list, takes_entry64 *takes, orders_entries64 *order) {
  return scandirat(at, p, (struct dirent ***)list, (takes_entry *)takes, (orders_entries *)order);
}

/* The C library looks for names by what it is given in place of its own calls: by ours. */
static void close_listing(void *d) { (void)closedir(d); }
EXPORT int glob(const char *pattern, int how, int (*fails)(const char *, int), glob_t *to) {
  NEXT(glob);
  if (!takes_part() || (how & GLOB_ALTDIRFUNC)) return next(pattern, how, fails, to);
  to->gl_opendir = (void *(*)(const char *))opendir;
  to->gl_readdir = (struct dirent * (*)(void *))readdir;
  to->gl_closedir = close_listing;
  to->gl_stat = (int (*)(const char *, struct stat *))stat;
  to->gl_lstat = (int (*)(const char *, struct stat *))lstat;
  int r = next(pattern, how | GLOB_ALTDIRFUNC, fails, to);
  to->gl_flags &= ~GLOB_ALTDIRFUNC;
  return r;
}
EXPORT int glob64(const char *pattern, int how, int (*fails)(const char *, int), glob64_t *to) {
  return glob(pattern, how, fails, (glob_t *)to);
}
