/* What `ioctl` asks and sets: of terminals, of what is there to be read, and of the interfaces of networks. These are
 * outcomes of the host; all else is refused, and said. */
#define _GNU_SOURCE
#include "preload.h"

#include <fcntl.h>
#include <linux/fs.h>
#include <linux/sockios.h>
#include <net/if.h>
#include <string.h>
#include <sys/ioctl.h>
#include <sys/socket.h>
#include <sys/syscall.h>
#include <unistd.h>

/* How many bytes the host answers, or 0 where it is not asked. */
static size_t room_of(unsigned long what) {
  switch (what) {
  case TCGETS: return 36;
  case TIOCGWINSZ: return 8;
  case TIOCGPGRP: case FIONREAD: case TIOCOUTQ: return 4;
  default: return 0;
  }
}
/* Whether this asks what an interface of a network is, of which a socket of any kind knows. */
static bool is_interface(unsigned long what) {
  switch (what) {
  case SIOCGIFNAME: case SIOCGIFINDEX: case SIOCGIFFLAGS: case SIOCGIFADDR: case SIOCGIFDSTADDR: case SIOCGIFBRDADDR:
  case SIOCGIFNETMASK: case SIOCGIFMETRIC: case SIOCGIFMTU: case SIOCGIFHWADDR: case SIOCGIFTXQLEN: return true;
  default: return false;
  }
}
long call_ioctl(const question *q, uint8_t *out) {
  if (q->length) memcpy(out, q->bytes, q->length);
  if (q->at >= 0) return KERNEL(SYS_ioctl, q->at, q->a, out);
  long it = KERNEL(SYS_socket, AF_INET, SOCK_DGRAM | SOCK_CLOEXEC, 0); /* of a socket that the host does not have yet */
  long r = it < 0 ? it : KERNEL(SYS_ioctl, it, q->a, out);
  if (it >= 0) KERNEL(SYS_close, it);
  return r;
}
/* An interface by its number or its name. What is behind a name is by chance, and is not asked. */
static int ask_interface(int real, unsigned long what, struct ifreq *given) {
  struct ifreq of;
  memset(&of, 0, sizeof of);
  if (what == SIOCGIFNAME) of.ifr_ifindex = given->ifr_ifindex;
  else memcpy(of.ifr_name, given->ifr_name, strnlen(given->ifr_name, sizeof of.ifr_name));
  return (int)ask(&(question){.what = ASK_IOCTL, .at = real, .a = (int64_t)what, .bytes = &of, .length = sizeof of,
                              .room = sizeof of}, given, NULL);
}
/* How many bytes a pipe or a pair has to be read. */
static int bytes_there(const opened_file *f, int *to) {
  turn();
  *to = f->in && f->in->filled > 0 ? (int)f->in->filled : 0;
  turn_end();
  return 0;
}

EXPORT int ioctl(int fd, unsigned long what, ...) {
  va_list rest;
  va_start(rest, what);
  void *given = va_arg(rest, void *);
  va_end(rest);
  NEXT(ioctl);
  OFF(next(fd, what, given));
  if (!is_ours(fd)) return next(fd, what, given);
  const opened_file *f = opened_at(fd);
  bool socket = f->kind == STREAM || f->kind == LISTENER || f->kind == SOCKET || f->kind == NET;
  bool at_host = f->kind == HOST || f->kind == STANDARD || (socket && f->kind != SOCKET);
  size_t room = room_of(what);
  if (f->kind == NONE) return errno = EBADF, -1;
  if (what == FIOCLEX || what == FIONCLEX) return fcntl(fd, F_SETFD, what == FIOCLEX ? FD_CLOEXEC : 0);
  if (what == FIONBIO) {
    int flags = fcntl(fd, F_GETFL);
    return fcntl(fd, F_SETFL, *(int *)given ? flags | O_NONBLOCK : flags & ~O_NONBLOCK);
  }
  if (f->kind == PIPE && what == FIONREAD) return bytes_there(f, given);
  if (socket && is_interface(what)) return ask_interface(f->kind == SOCKET ? -1 : f->real, what, given);
  if (room && at_host) return (int)asks(ASK_IOCTL, f->real, NULL, (int64_t)what, given, room);
  if (room) return errno = ENOTTY, -1; /* as it is of memory, of events and of what waits for its address */
  if (what == FICLONE || what == FICLONERANGE || what == FIDEDUPERANGE) return errno = EOPNOTSUPP, -1;
  if (at_host || f->kind == PIPE || f->kind == SOCKET)
    uncovered("ioctl", "ioctl 0x%lx of descriptor %d is not covered: refused, in a rerun too", what, fd);
  return errno = ENOTTY, -1;
}
EXPORT int isatty(int fd) {
  NEXT(isatty);
  OFF(next(fd));
  char settings_of_terminal[60];
  return is_ours(fd) ? ioctl(fd, TCGETS, settings_of_terminal) == 0 : next(fd);
}
