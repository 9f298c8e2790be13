/* Sockets: TCP at 127.0.0.1. A number is a file in memory until it has an address or is connected. */
#define _GNU_SOURCE
#include "preload.h"

#include <arpa/inet.h>
#include <fcntl.h>
#include <netinet/in.h>
#include <poll.h>
#include <stdlib.h>
#include <string.h>
#include <sys/socket.h>
#include <sys/uio.h>
#include <unistd.h>

EXPORT int socket(int domain, int type, int protocol) {
  NEXT(socket);
  OFF(next(domain, type, protocol));
  bool known = domain == AF_UNIX || domain == AF_INET || domain == AF_INET6 || domain == AF_NETLINK;
  if (known && (domain != AF_INET || (type & 15) != SOCK_STREAM)) return new_net(domain, type, protocol);
  if (!known) {
    uncovered("socket", "sockets of family %d and type %d are not covered: refused, in a rerun too", domain, type & 15);
    return errno = EAFNOSUPPORT, -1;
  }
  int fd = (int)plain_call(&(detio_call){.kind = DETIO_OPEN, .choice = DETIO_READ_WRITE, .flags = DETIO_CREATE},
                           "/.socket", 8, NULL, 0);
  if (fd < 0) return fd;
  new_opened(fd, SOCKET, -1);
  if (type & SOCK_NONBLOCK) (void)fcntl(fd, F_SETFL, O_NONBLOCK);
  if (type & SOCK_CLOEXEC) (void)fcntl(fd, F_SETFD, FD_CLOEXEC);
  return fd;
}

/* A door takes the place of a socket at its number. */
static int becomes(int fd, const detio_call *call, enum kind kind) {
  opened_file *f = opened_at(fd);
  bool nonblock = f->nonblock;
  int door = (int)plain_call(call, NULL, 0, NULL, 0), real = slots[me].opened;
  if (door < 0) return -1;
  (void)plain_call(&(detio_call){.kind = DETIO_DUP2, .descriptor = door, .number = fd}, NULL, 0, NULL, 0);
  (void)plain_call(&(detio_call){.kind = DETIO_CLOSE, .descriptor = door}, NULL, 0, NULL, 0);
  f->kind = kind;
  f->real = real;
  f->nonblock = false;
  if (nonblock) (void)fcntl(fd, F_SETFL, O_NONBLOCK);
  return 0;
}

/* .. or a socket that the host has. */
static int becomes_net(int fd) {
  bool nonblock = opened_at(fd)->nonblock;
  int made = new_net(AF_INET, SOCK_STREAM, 0);
  if (made < 0 || dup2(made, fd) < 0) return -1;
  (void)close(made);
  return nonblock ? fcntl(fd, F_SETFL, O_NONBLOCK) : 0;
}

static bool is_socket(int fd);
/* What fails on a descriptor that is none that waits for its address: with this error, where it is a socket. */
static int not_new(int fd, int error) { return is_socket(fd) ? (errno = error, -1) : -1; }
static bool is_loopback(const struct sockaddr_in *to) { return ntohl(to->sin_addr.s_addr) >> 24 == 127; }

EXPORT int bind(int fd, const struct sockaddr *to, socklen_t length) {
  NEXT(bind);
  OFF(next(fd, to, length));
  if (!is_ours(fd)) return next(fd, to, length);
  const struct sockaddr_in *in = (const struct sockaddr_in *)to;
  opened_file *f = opened_at(fd);
  if (f->kind == NET) return bind_net(fd, to, length);
  if (f->kind != SOCKET) return not_new(fd, EINVAL);
  if (length < sizeof *in || in->sin_family != AF_INET) return errno = EAFNOSUPPORT, -1;
  if (in->sin_addr.s_addr == htonl(INADDR_ANY))
    uncovered("any", "a server of all addresses listens at 127.0.0.1 alone");
  else if (!is_loopback(in)) {
    uncovered("address", "a server of an address other than 127.0.0.1 is not covered: refused, in a rerun too");
    return errno = EADDRNOTAVAIL, -1;
  }
  /* Its port is asked for at once, and so it listens from here on. */
  return becomes(fd, &(detio_call){.kind = DETIO_TCP_LISTEN, .number = ntohs(in->sin_port)}, LISTENER);
}
EXPORT int listen(int fd, int count) {
  NEXT(listen);
  OFF(next(fd, count));
  if (!is_ours(fd)) return next(fd, count);
  opened_file *f = opened_at(fd);
  if (f->kind == NET) return listen_net(fd, count);
  if (f->kind == LISTENER) return 0;
  if (f->kind != SOCKET) return not_new(fd, EINVAL);
  return becomes(fd, &(detio_call){.kind = DETIO_TCP_LISTEN}, LISTENER);
}
EXPORT int connect(int fd, const struct sockaddr *to, socklen_t length) {
  NEXT(connect);
  OFF(next(fd, to, length));
  if (!is_ours(fd)) return next(fd, to, length);
  const struct sockaddr_in *in = (const struct sockaddr_in *)to;
  enum kind kind = opened_at(fd)->kind;
  if (kind == NET) return connect_net(fd, to, length);
  if (kind == LISTENER)
    uncovered("bound", "to connect a TCP socket that has an address is not covered: refused, in a rerun too");
  if (kind != SOCKET) return not_new(fd, EISCONN);
  if (length < sizeof *in || in->sin_family != AF_INET) return errno = EAFNOSUPPORT, -1;
  if (!is_loopback(in)) return becomes_net(fd) ? -1 : connect_net(fd, to, length);
  return becomes(fd, &(detio_call){.kind = DETIO_TCP_CONNECT, .number = ntohs(in->sin_port)}, STREAM);
}

/* The address of a socket, or of its peer, as the host has it. */
static int address_of(int fd, enum ask what, struct sockaddr *to, socklen_t *length) {
  uint8_t bytes[128];
  size_t there = 0;
  const opened_file *f = opened_at(fd);
  struct sockaddr_in in = {.sin_family = AF_INET};
  if (f->kind == NONE) return errno = EBADF, -1;
  if (f->kind == SOCKET || f->kind == PIPE) {
    if (what == ASK_PEERNAME && f->kind == SOCKET) return errno = ENOTCONN, -1;
    if (f->kind == PIPE) in.sin_family = AF_UNIX;
    memcpy(bytes, &in, there = f->kind == PIPE ? sizeof(sa_family_t) : sizeof in);
  } else if (f->kind == STREAM || f->kind == LISTENER || f->kind == NET) {
    if (ask(&(question){.what = what, .at = f->real, .room = sizeof bytes}, bytes, &there) < 0) return -1;
  } else {
    return errno = ENOTSOCK, -1;
  }
  if (!to || !length) return 0;
  memcpy(to, bytes, there < *length ? there : *length);
  *length = (socklen_t)there;
  return 0;
}
EXPORT int getsockname(int fd, struct sockaddr *to, socklen_t *length) {
  NEXT(getsockname);
  OFF(next(fd, to, length));
  return is_ours(fd) ? address_of(fd, ASK_SOCKNAME, to, length) : next(fd, to, length);
}
EXPORT int getpeername(int fd, struct sockaddr *to, socklen_t *length) {
  NEXT(getpeername);
  OFF(next(fd, to, length));
  return is_ours(fd) ? address_of(fd, ASK_PEERNAME, to, length) : next(fd, to, length);
}

EXPORT int accept4(int fd, struct sockaddr *from, socklen_t *length, int flags) {
  NEXT(accept4);
  OFF(next(fd, from, length, flags));
  if (!is_ours(fd)) return next(fd, from, length, flags);
  int got;
  forget_told(opened_at(fd));
  if (opened_at(fd)->kind == NET) {
    got = accept_net(fd, flags);
    if (got >= 0 && from && length) (void)address_of(got, ASK_PEERNAME, from, length);
    return got;
  }
  do {
    if (!wait_for_door(fd, POLLIN)) return -1;
    got = (int)plain_call(&(detio_call){.kind = DETIO_TCP_ACCEPT, .descriptor = fd}, NULL, 0, NULL, 0);
  } while (got < 0 && errno == EINTR);
  if (got < 0) return got;
  new_opened(got, STREAM, slots[me].opened);
  if (flags & SOCK_NONBLOCK) (void)fcntl(got, F_SETFL, O_NONBLOCK);
  if (flags & SOCK_CLOEXEC) (void)fcntl(got, F_SETFD, FD_CLOEXEC);
  if (from && length) (void)address_of(got, ASK_PEERNAME, from, length);
  return got;
}
EXPORT int accept(int fd, struct sockaddr *from, socklen_t *length) {
  NEXT(accept);
  OFF(next(fd, from, length));
  return accept4(fd, from, length, 0);
}
EXPORT int shutdown(int fd, int how) {
  NEXT(shutdown);
  OFF(next(fd, how));
  if (!is_ours(fd)) return next(fd, how);
  if (opened_at(fd)->kind == NET) return shut_net(fd, how);
  int r = (int)plain_call(&(detio_call){.kind = DETIO_SHUTDOWN, .descriptor = fd, .choice = (uint32_t)how}, NULL, 0,
                          NULL, 0);
  if (!r) note_closed(opened_at(fd), how != SHUT_WR, how != SHUT_RD);
  return r;
}

static bool is_socket(int fd) {
  enum kind kind = opened_at(fd)->kind;
  if (kind == NONE) return errno = EBADF, false;
  if (kind == STREAM || kind == PIPE || kind == LISTENER || kind == SOCKET || kind == NET) return true;
  return errno = ENOTSOCK, false;
}
EXPORT ssize_t recv(int fd, void *bytes, size_t count, int flags) {
  NEXT(recv);
  OFF(next(fd, bytes, count, flags));
  if (!is_ours(fd)) return next(fd, bytes, count, flags);
  if (!is_socket(fd)) return -1;
  bool looks = opened_at(fd)->kind == STREAM && (flags & MSG_PEEK); /* what is there stays there, at the host */
  if (opened_at(fd)->kind == NET || looks) return receive_net(fd, bytes, count, flags, NULL, NULL, NULL);
  if (flags & ~(MSG_NOSIGNAL | MSG_DONTWAIT | MSG_WAITALL | MSG_CMSG_CLOEXEC)) {
    uncovered("recv", "recv with flags %d is not covered: refused, in a rerun too", flags);
    return errno = EOPNOTSUPP, -1;
  }
  size_t done = 0;
  bool nonblock = opened_at(fd)->nonblock;
  if ((flags & MSG_DONTWAIT) && !nonblock) (void)fcntl(fd, F_SETFL, O_NONBLOCK);
  for (ssize_t n = 1; done < count && n > 0; done += (size_t)n) {
    n = read(fd, (char *)bytes + done, count - done);
    if (n < 0 && !done) done = SIZE_MAX;
    if (n < 0 || !(flags & MSG_WAITALL)) { done += n > 0 ? (size_t)n : 0; break; }
  }
  if ((flags & MSG_DONTWAIT) && !nonblock) (void)fcntl(fd, F_SETFL, 0);
  return done == SIZE_MAX ? -1 : (ssize_t)done;
}
EXPORT ssize_t __recv_chk(int fd, void *bytes, size_t count, size_t room, int flags) {
  if (count > room) abort();
  return recv(fd, bytes, count, flags);
}
EXPORT ssize_t recvfrom(int fd, void *bytes, size_t count, int flags, struct sockaddr *from, socklen_t *length) {
  NEXT(recvfrom);
  OFF(next(fd, bytes, count, flags, from, length));
  if (!is_ours(fd)) return next(fd, bytes, count, flags, from, length);
  if (opened_at(fd)->kind == NET) return receive_net(fd, bytes, count, flags, from, length, NULL);
  if (from && length) *length = 0;
  return recv(fd, bytes, count, flags);
}
EXPORT ssize_t __recvfrom_chk(int fd, void *bytes, size_t count, size_t room, int flags, struct sockaddr *from,
                              socklen_t *length) {
  if (count > room) abort();
  return recvfrom(fd, bytes, count, flags, from, length);
}
EXPORT ssize_t send(int fd, const void *bytes, size_t count, int flags) {
  NEXT(send);
  OFF(next(fd, bytes, count, flags));
  if (!is_ours(fd)) return next(fd, bytes, count, flags);
  if (opened_at(fd)->kind == NET) return send_net(fd, bytes, count, flags, NULL, 0);
  if (!is_socket(fd)) return -1;
  if (flags & ~(MSG_NOSIGNAL | MSG_DONTWAIT | MSG_MORE | MSG_EOR | MSG_CONFIRM | MSG_DONTROUTE)) {
    uncovered("send", "send with flags %d is not covered: refused, in a rerun too", flags);
    return errno = EOPNOTSUPP, -1;
  }
  bool is_short = (flags & MSG_DONTWAIT) && !opened_at(fd)->nonblock;
  if (is_short) (void)fcntl(fd, F_SETFL, O_NONBLOCK);
  ssize_t n = write(fd, bytes, count);
  int error = errno;
  if (is_short) (void)fcntl(fd, F_SETFL, 0);
  return errno = error, n;
}
EXPORT ssize_t sendto(int fd, const void *bytes, size_t count, int flags, const struct sockaddr *to, socklen_t length) {
  NEXT(sendto);
  OFF(next(fd, bytes, count, flags, to, length));
  if (!is_ours(fd)) return next(fd, bytes, count, flags, to, length);
  if (opened_at(fd)->kind == NET) return send_net(fd, bytes, count, flags, to, length);
  return send(fd, bytes, count, flags);
}
EXPORT ssize_t recvmsg(int fd, struct msghdr *message, int flags) {
  NEXT(recvmsg);
  OFF(next(fd, message, flags));
  if (!is_ours(fd)) return next(fd, message, flags);
  if (opened_at(fd)->kind == NET) return receive_parts(fd, message, flags);
  message->msg_namelen = 0;
  message->msg_controllen = 0;
  message->msg_flags = 0;
  ssize_t all = 0;
  for (size_t i = 0; i < message->msg_iovlen; i++) {
    ssize_t n = recv(fd, message->msg_iov[i].iov_base, message->msg_iov[i].iov_len, flags);
    if (n < 0) return all ? all : n;
    all += n;
    if ((size_t)n < message->msg_iov[i].iov_len) break;
  }
  return all;
}
EXPORT ssize_t sendmsg(int fd, const struct msghdr *message, int flags) {
  NEXT(sendmsg);
  OFF(next(fd, message, flags));
  if (!is_ours(fd)) return next(fd, message, flags);
  if (opened_at(fd)->kind == NET) return send_parts(fd, message, flags);
  if (!is_socket(fd)) return -1;
  if (has_control(message)) return errno = EOPNOTSUPP, -1;
  return writev(fd, message->msg_iov, (int)message->msg_iovlen);
}

/* Several messages: how many, or -1 where the first fails. The kernel looks at the time after each that came. */
EXPORT int sendmmsg(int fd, struct mmsghdr *of, unsigned count, int flags) {
  NEXT(sendmmsg);
  OFF(next(fd, of, count, flags));
  if (!is_ours(fd)) return next(fd, of, count, flags);
  for (unsigned i = 0; i < count; i++) {
    ssize_t n = sendmsg(fd, &of[i].msg_hdr, flags);
    if (n < 0) return i ? (int)i : -1;
    of[i].msg_len = (unsigned)n;
  }
  return (int)count;
}
static bool is_over(const struct timespec *time, const struct timespec *began) {
  struct timespec now;
  (void)clock_gettime(CLOCK_MONOTONIC, &now);
  int64_t passed = (now.tv_sec - began->tv_sec) * (int64_t)1000000000 + now.tv_nsec - began->tv_nsec;
  return passed >= time->tv_sec * (int64_t)1000000000 + time->tv_nsec;
}
EXPORT int recvmmsg(int fd, struct mmsghdr *to, unsigned count, int flags, struct timespec *time) {
  NEXT(recvmmsg);
  OFF(next(fd, to, count, flags, time));
  if (!is_ours(fd)) return next(fd, to, count, flags, time);
  struct timespec began = {0, 0};
  bool one = flags & MSG_WAITFORONE;
  if (time && (time->tv_sec < 0 || (unsigned long)time->tv_nsec >= 1000000000)) return errno = EINVAL, -1;
  if (time) (void)clock_gettime(CLOCK_MONOTONIC, &began);
  flags &= ~MSG_WAITFORONE;
  for (unsigned i = 0; i < count; i++) {
    ssize_t n = recvmsg(fd, &to[i].msg_hdr, flags);
    if (n < 0) return i ? (int)i : -1;
    to[i].msg_len = (unsigned)n;
    if (one) flags |= MSG_DONTWAIT;
    if (time && is_over(time, &began)) return (int)i + 1;
  }
  return (int)count;
}

/* Options: a socket of ours has none, but says what it is. */
EXPORT int setsockopt(int fd, int level, int option, const void *value, socklen_t length) {
  NEXT(setsockopt);
  OFF(next(fd, level, option, value, length));
  if (!is_ours(fd)) return next(fd, level, option, value, length);
  opened_file *f = opened_at(fd);
  if (f->kind == NET) return set_net(fd, level, option, value, length);
  if (!is_socket(fd)) return -1;
  const struct timeval *time = value;
  if (level != SOL_SOCKET || length < sizeof *time) return 0;
  if (option == SO_RCVTIMEO && f->kind != PIPE) f->in_nanos = time->tv_sec * (int64_t)1000000000 + time->tv_usec * 1000;
  if ((option == SO_RCVTIMEO && f->kind == PIPE) || option == SO_SNDTIMEO)
    uncovered("timeout", "how long a %s waits is not covered: it waits as long as it must, in a rerun too",
              option == SO_SNDTIMEO ? "send" : "read of a socketpair");
  return 0;
}
EXPORT int getsockopt(int fd, int level, int option, void *value, socklen_t *length) {
  NEXT(getsockopt);
  OFF(next(fd, level, option, value, length));
  if (!is_ours(fd)) return next(fd, level, option, value, length);
  if (!is_socket(fd)) return -1;
  if (opened_at(fd)->kind == NET) return get_net(fd, level, option, value, length);
  int is = option == SO_TYPE ? SOCK_STREAM
           : option == SO_DOMAIN ? (opened_at(fd)->kind == PIPE ? AF_UNIX : AF_INET)
           : option == SO_ACCEPTCONN ? opened_at(fd)->kind == LISTENER
           : option == SO_RCVBUF || option == SO_SNDBUF ? 65536 : 0;
  memset(value, 0, *length);
  memcpy(value, &is, *length < sizeof is ? *length : sizeof is);
  if (*length > sizeof is) *length = sizeof is;
  return 0;
}
