/* What the run does not cover: refused, in a run and in a rerun, with one line. */
#define _GNU_SOURCE
#include "preload.h"

#include <aio.h>
#include <dirent.h>
#include <fcntl.h>
#include <poll.h>
#include <sched.h>
#include <signal.h>
#include <stdio.h>
#include <stdlib.h>
#include <sys/mman.h>
#include <sys/socket.h>
#include <sys/time.h>
#include <sys/timex.h>
#include <sys/uio.h>
#include <termios.h>
#include <time.h>
#include <unistd.h>

/* `name` fails with this error, and is `failed` then. */
#define REFUSES(type, failed, error, name, given, passed)        \
  EXPORT type name given {                                       \
    static type(*next) given;                                    \
    if (!next) next = (type(*) given)dlsym(RTLD_NEXT, #name);    \
    OFF(next passed);                                            \
    uncovered(#name, "%s is not covered: refused, in a rerun too", #name);            \
    errno = error;                                               \
    return failed;                                               \
  }
#define REFUSED(name, given, passed) REFUSES(int, -1, ENOSYS, name, given, passed)

/* What makes descriptors that the machine does not have, and what is done with them. */
REFUSED(signalfd, (int fd, const sigset_t *set, int flags), (fd, set, flags))
REFUSED(inotify_init, (void), ())
REFUSED(inotify_init1, (int flags), (flags))
REFUSED(inotify_add_watch, (int fd, const char *path, uint32_t mask), (fd, path, mask))
REFUSED(inotify_rm_watch, (int fd, int watch), (fd, watch))
REFUSED(fanotify_init, (unsigned flags, unsigned how), (flags, how))
REFUSED(fanotify_mark, (int fd, unsigned flags, uint64_t mask, int at, const char *path), (fd, flags, mask, at, path))
REFUSED(memfd_create, (const char *name, unsigned flags), (name, flags))
REFUSED(shm_open, (const char *name, int how, mode_t mode), (name, how, mode))
REFUSED(shm_unlink, (const char *name), (name))
REFUSED(pidfd_open, (pid_t pid, unsigned flags), (pid, flags))
REFUSED(pidfd_getfd, (int fd, int other, unsigned flags), (fd, other, flags))
REFUSED(pidfd_send_signal, (int fd, int number, siginfo_t *about, unsigned flags), (fd, number, about, flags))
REFUSES(ssize_t, -1, ENOSYS, process_madvise,
        (int fd, const struct iovec *parts, size_t count, int how, unsigned flags), (fd, parts, count, how, flags))
REFUSED(process_mrelease, (int fd, unsigned flags), (fd, flags))
REFUSED(getpt, (void), ())
REFUSED(posix_openpt, (int how), (how))
REFUSED(grantpt, (int fd), (fd))
REFUSED(unlockpt, (int fd), (fd))
REFUSES(char *, NULL, ENOSYS, ptsname, (int fd), (fd))
REFUSES(int, ENOSYS, ENOSYS, __ptsname_r_chk, (int fd, char *to, size_t room, size_t has), (fd, to, room, has))
REFUSES(int, ENOSYS, ENOSYS, ptsname_r, (int fd, char *to, size_t room), (fd, to, room))
REFUSED(login_tty, (int fd), (fd))
REFUSED(open_tree, (int at, const char *path, unsigned flags), (at, path, flags))
REFUSED(move_mount, (int from, const char *p, int to, const char *q, unsigned flags), (from, p, to, q, flags))
REFUSED(mount_setattr, (int at, const char *p, unsigned flags, void *how, size_t size), (at, p, flags, how, size))
REFUSED(fsopen, (const char *name, unsigned flags), (name, flags))
REFUSED(fspick, (int at, const char *path, unsigned flags), (at, path, flags))
REFUSED(fsconfig, (int fd, unsigned what, const char *key, const void *value, int more), (fd, what, key, value, more))
REFUSED(fsmount, (int fd, unsigned flags, unsigned how), (fd, flags, how))
REFUSED(mq_open, (const char *name, int how, mode_t mode, void *of), (name, how, mode, of))
REFUSED(__mq_open_2, (const char *name, int how), (name, how))
REFUSED(mq_unlink, (const char *name), (name))
REFUSED(mq_close, (int queue), (queue))
REFUSED(mq_getattr, (int queue, void *to), (queue, to))
REFUSED(mq_setattr, (int queue, const void *how, void *old), (queue, how, old))
REFUSED(mq_notify, (int queue, const struct sigevent *then), (queue, then))
REFUSED(mq_send, (int queue, const char *of, size_t length, unsigned rank), (queue, of, length, rank))
REFUSED(mq_timedsend, (int queue, const char *of, size_t length, unsigned rank, const struct timespec *until),
        (queue, of, length, rank, until))
REFUSES(ssize_t, -1, ENOSYS, mq_receive, (int queue, char *to, size_t room, unsigned *rank), (queue, to, room, rank))
REFUSES(ssize_t, -1, ENOSYS, mq_timedreceive,
        (int queue, char *to, size_t room, unsigned *rank, const struct timespec *until),
        (queue, to, room, rank, until))

/* What is done to descriptors, and has no call of the machine. */
REFUSES(ssize_t, -1, ENOSYS, getdents64, (int fd, void *to, size_t room), (fd, to, room))
REFUSES(ssize_t, -1, ENOSYS, getdirentries, (int fd, char *to, size_t room, off_t *at), (fd, to, room, at))
REFUSES(ssize_t, -1, ENOSYS, getdirentries64, (int fd, char *to, size_t room, off64_t *at), (fd, to, room, at))
REFUSES(int, -1, EOPNOTSUPP, name_to_handle_at, (int at, const char *p, struct file_handle *to, int *mount, int flags),
        (at, p, to, mount, flags))
REFUSES(int, -1, EOPNOTSUPP, open_by_handle_at, (int mount, struct file_handle *of, int how), (mount, of, how))
REFUSES(ssize_t, -1, EINVAL, tee, (int from, int to, size_t count, unsigned flags), (from, to, count, flags))
REFUSES(ssize_t, -1, EINVAL, vmsplice, (int fd, const struct iovec *parts, size_t count, unsigned flags),
        (fd, parts, count, flags))
REFUSED(sockatmark, (int fd), (fd))
REFUSED(bindresvport, (int fd, void *address), (fd, address))
REFUSED(setns, (int fd, int what), (fd, what))
REFUSED(tcsetpgrp, (int fd, pid_t group), (fd, group))
REFUSED(tcsetattr, (int fd, int when, const struct termios *how), (fd, when, how))
REFUSED(tcsendbreak, (int fd, int length), (fd, length))
REFUSED(tcdrain, (int fd), (fd))
REFUSED(tcflush, (int fd, int what), (fd, what))
REFUSED(tcflow, (int fd, int what), (fd, what))
REFUSES(pid_t, -1, ENOSYS, tcgetsid, (int fd), (fd))
REFUSES(int, -1, ENOTSUP, setxattr, (const char *p, const char *key, const void *value, size_t size, int how),
        (p, key, value, size, how))
REFUSES(int, -1, ENOTSUP, lsetxattr, (const char *p, const char *key, const void *value, size_t size, int how),
        (p, key, value, size, how))
REFUSES(int, -1, ENOTSUP, fsetxattr, (int fd, const char *key, const void *value, size_t size, int how),
        (fd, key, value, size, how))
REFUSES(int, -1, ENOTSUP, removexattr, (const char *p, const char *key), (p, key))
REFUSES(int, -1, ENOTSUP, lremovexattr, (const char *p, const char *key), (p, key))
REFUSES(int, -1, ENOTSUP, fremovexattr, (int fd, const char *key), (fd, key))

/* The C library's own threads beside those of the run, and locks that processes share. */
#define REFUSED_AIO(name) REFUSED(name, (struct aiocb * it), (it)) REFUSED(name##64, (struct aiocb64 * it), (it))
REFUSED_AIO(aio_read)
REFUSED_AIO(aio_write)
REFUSED(aio_fsync, (int how, struct aiocb *it), (how, it))
REFUSED(aio_fsync64, (int how, struct aiocb64 *it), (how, it))
REFUSED(aio_cancel, (int fd, struct aiocb *it), (fd, it))
REFUSED(aio_cancel64, (int fd, struct aiocb64 *it), (fd, it))
REFUSED(aio_suspend, (const struct aiocb *const all[], int count, const struct timespec *time), (all, count, time))
REFUSED(aio_suspend64, (const struct aiocb64 *const all[], int count, const struct timespec *time), (all, count, time))
REFUSED(lio_listio, (int how, struct aiocb *const all[], int count, struct sigevent *then), (how, all, count, then))
REFUSED(lio_listio64, (int how, struct aiocb64 *const all[], int count, struct sigevent *then), (how, all, count, then))
REFUSES(void *, NULL, ENOSYS, sem_open, (const char *name, int how, mode_t mode, unsigned value),
        (name, how, mode, value))
REFUSED(sem_unlink, (const char *name), (name))
REFUSES(int, ENOSYS, ENOSYS, pthread_mutex_setprioceiling, (pthread_mutex_t * m, int to, int *old), (m, to, old))

/* What changes the host, or asks it what no log has. */
REFUSED(mount, (const char *a, const char *b, const char *c, unsigned long d, const void *e), (a, b, c, d, e))
REFUSED(unshare, (int what), (what))
REFUSED(acct, (const char *path), (path))
REFUSED(chroot, (const char *path), (path))
REFUSED(vhangup, (void), ())
REFUSED(sethostname, (const char *name, size_t length), (name, length))
REFUSED(setdomainname, (const char *name, size_t length), (name, length))
REFUSED(sethostid, (long number), (number))
REFUSED(clock_settime, (clockid_t clock, const struct timespec *to), (clock, to))
REFUSED(clock_adjtime, (clockid_t clock, struct timex *by), (clock, by))
REFUSED(adjtimex, (struct timex * by), (by))
REFUSED(__adjtimex, (struct timex * by), (by))
REFUSED(ntp_adjtime, (struct timex * by), (by))
REFUSED(ntp_gettimex, (struct ntptimeval * to), (to))
REFUSED(adjtime, (const struct timeval *by, struct timeval *old), (by, old))
REFUSED(mincore, (void *at, size_t length, unsigned char *to), (at, length, to))
REFUSED(pkey_alloc, (unsigned flags, unsigned rights), (flags, rights))
REFUSES(char *, NULL, ENOSYS, getpass, (const char *prompt), (prompt))
REFUSES(char *, NULL, ENOSYS, tmpnam, (char to[L_tmpnam]), (to))
REFUSES(char *, NULL, ENOSYS, tmpnam_r, (char to[L_tmpnam]), (to))
REFUSES(char *, NULL, ENOSYS, tempnam, (const char *folder, const char *prefix), (folder, prefix))

/* A thread or a process that the C library does not know. */
EXPORT TAKES_ALL int clone(int (*begins)(void *), void *stack, int flags, void *given, ...) {
  NEXT(clone);
  va_list rest;
  va_start(rest, given);
  void *parent = va_arg(rest, void *), *locals = va_arg(rest, void *), *child = va_arg(rest, void *);
  va_end(rest);
  OFF(next(begins, stack, flags, given, parent, locals, child));
  uncovered("clone", "clone is not covered: refused, in a rerun too");
  return errno = ENOSYS, -1;
}
