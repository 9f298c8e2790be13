/* What is not covered: each call fails with its error, and says so. Each is made by its name alone, without a type:
 * none comes to look at what it is given. */
#define _GNU_SOURCE
#include <errno.h>
#include <stdarg.h>
#include <stdbool.h>
#include <stdio.h>
#include <string.h>
#include <wchar.h>

static int wrong;
/* Whether a call failed with this error: with -1, with NULL, or with the error itself. */
static void must(const char *what, long result, int error) {
  int is = errno;
  bool failed = (int)result == -1 || !result || (int)result == error;
  printf("%s: %s\n", what, is ? strerrorname_np(is) : "0");
  wrong += !failed || is != error;
}
#define REFUSED(name, error)                                                                                 \
  do {                                                                                                       \
    extern long called_##name(long, void *, void *, void *, void *) __asm__(#name);                           \
    errno = 0;                                                                                               \
    must(#name, called_##name(0, "", "", NULL, NULL), error);                                                \
  } while (0)

int wide_scan(FILE *, const wchar_t *, va_list) __asm__("vfwscanf");
int wide_scan99(FILE *, const wchar_t *, va_list) __asm__("__isoc99_vfwscanf");
int wide_input(const wchar_t *, va_list) __asm__("vwscanf");
int wide_input99(const wchar_t *, va_list) __asm__("__isoc99_vwscanf");
int wide_file(FILE *, const wchar_t *, ...) __asm__("fwscanf");
int wide_file99(FILE *, const wchar_t *, ...) __asm__("__isoc99_fwscanf");
int wide_words(const wchar_t *, ...) __asm__("wscanf"), wide_words99(const wchar_t *, ...) __asm__("__isoc99_wscanf");
#define SCANS(call) (errno = 0, must(#call, call, ENOSYS))
static void scans(const wchar_t *format, ...) {
  va_list given;
  va_start(given, format);
  SCANS(wide_scan(stdin, format, given));
  SCANS(wide_scan99(stdin, format, given));
  SCANS(wide_input(format, given));
  SCANS(wide_input99(format, given));
  SCANS(wide_file(stdin, format));
  SCANS(wide_file99(stdin, format));
  SCANS(wide_words(format));
  SCANS(wide_words99(format));
  va_end(given);
}

int main(void) {
  scans(L"%d", &wrong);
  REFUSED(signalfd, ENOSYS);
  REFUSED(inotify_init, ENOSYS);
  REFUSED(inotify_init1, ENOSYS);
  REFUSED(inotify_add_watch, ENOSYS);
  REFUSED(inotify_rm_watch, ENOSYS);
  REFUSED(fanotify_init, ENOSYS);
  REFUSED(fanotify_mark, ENOSYS);
  REFUSED(memfd_create, ENOSYS);
  REFUSED(shm_open, ENOSYS);
  REFUSED(shm_unlink, ENOSYS);
  REFUSED(pidfd_open, ENOSYS);
  REFUSED(pidfd_getfd, ENOSYS);
  REFUSED(pidfd_send_signal, ENOSYS);
  REFUSED(process_madvise, ENOSYS);
  REFUSED(process_mrelease, ENOSYS);
  REFUSED(getpt, ENOSYS);
  REFUSED(posix_openpt, ENOSYS);
  REFUSED(grantpt, ENOSYS);
  REFUSED(unlockpt, ENOSYS);
  REFUSED(ptsname, ENOSYS);
  REFUSED(__ptsname_r_chk, ENOSYS);
  REFUSED(ptsname_r, ENOSYS);
  REFUSED(login_tty, ENOSYS);
  REFUSED(open_tree, ENOSYS);
  REFUSED(move_mount, ENOSYS);
  REFUSED(mount_setattr, ENOSYS);
  REFUSED(fsopen, ENOSYS);
  REFUSED(fspick, ENOSYS);
  REFUSED(fsconfig, ENOSYS);
  REFUSED(fsmount, ENOSYS);
  REFUSED(mq_open, ENOSYS);
  REFUSED(__mq_open_2, ENOSYS);
  REFUSED(mq_unlink, ENOSYS);
  REFUSED(mq_close, ENOSYS);
  REFUSED(mq_getattr, ENOSYS);
  REFUSED(mq_setattr, ENOSYS);
  REFUSED(mq_notify, ENOSYS);
  REFUSED(mq_send, ENOSYS);
  REFUSED(mq_timedsend, ENOSYS);
  REFUSED(mq_receive, ENOSYS);
  REFUSED(mq_timedreceive, ENOSYS);
  REFUSED(getdents64, ENOSYS);
  REFUSED(getdirentries, ENOSYS);
  REFUSED(getdirentries64, ENOSYS);
  REFUSED(name_to_handle_at, EOPNOTSUPP);
  REFUSED(open_by_handle_at, EOPNOTSUPP);
  REFUSED(tee, EINVAL);
  REFUSED(vmsplice, EINVAL);
  REFUSED(sockatmark, ENOSYS);
  REFUSED(bindresvport, ENOSYS);
  REFUSED(setns, ENOSYS);
  REFUSED(tcsetpgrp, ENOSYS);
  REFUSED(tcsetattr, ENOSYS);
  REFUSED(tcsendbreak, ENOSYS);
  REFUSED(tcdrain, ENOSYS);
  REFUSED(tcflush, ENOSYS);
  REFUSED(tcflow, ENOSYS);
  REFUSED(tcgetsid, ENOSYS);
  REFUSED(setxattr, ENOTSUP);
  REFUSED(lsetxattr, ENOTSUP);
  REFUSED(fsetxattr, ENOTSUP);
  REFUSED(removexattr, ENOTSUP);
  REFUSED(lremovexattr, ENOTSUP);
  REFUSED(fremovexattr, ENOTSUP);
  REFUSED(aio_fsync, ENOSYS);
  REFUSED(aio_fsync64, ENOSYS);
  REFUSED(aio_cancel, ENOSYS);
  REFUSED(aio_cancel64, ENOSYS);
  REFUSED(aio_suspend, ENOSYS);
  REFUSED(aio_suspend64, ENOSYS);
  REFUSED(lio_listio, ENOSYS);
  REFUSED(lio_listio64, ENOSYS);
  REFUSED(sem_open, ENOSYS);
  REFUSED(sem_unlink, ENOSYS);
  REFUSED(pthread_mutex_setprioceiling, ENOSYS);
  REFUSED(mount, ENOSYS);
  REFUSED(unshare, ENOSYS);
  REFUSED(acct, ENOSYS);
  REFUSED(__adjtimex, ENOSYS);
  REFUSED(adjtime, ENOSYS);
  REFUSED(adjtimex, ENOSYS);
  REFUSED(ntp_adjtime, ENOSYS);
  REFUSED(ntp_gettimex, ENOSYS);
  REFUSED(chroot, ENOSYS);
  REFUSED(vhangup, ENOSYS);
  REFUSED(sethostname, ENOSYS);
  REFUSED(setdomainname, ENOSYS);
  REFUSED(sethostid, ENOSYS);
  REFUSED(clock_settime, ENOSYS);
  REFUSED(clock_adjtime, ENOSYS);
  REFUSED(mincore, ENOSYS);
  REFUSED(pkey_alloc, ENOSYS);
  REFUSED(getpass, ENOSYS);
  REFUSED(tmpnam, ENOSYS);
  REFUSED(tmpnam_r, ENOSYS);
  REFUSED(tempnam, ENOSYS);
  REFUSED(aio_read, ENOSYS);
  REFUSED(aio_read64, ENOSYS);
  REFUSED(aio_write, ENOSYS);
  REFUSED(aio_write64, ENOSYS);
  REFUSED(clone, ENOSYS);
  return wrong;
}
