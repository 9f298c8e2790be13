/* Sockets that the machine has no calls for: datagrams, those of the host's own names, of version 6, and connections to
 * other hosts. Each is a door; what is done with it are questions, and what comes of that is in the log. The host's
 * socket never waits: who must wait does so as for any door. */
#define _GNU_SOURCE
#include "preload.h"

#include <fcntl.h>
#include <netdb.h>
#include <poll.h>
#include <stdlib.h>
#include <string.h>
#include <sys/socket.h>
#include <sys/syscall.h>
#include <sys/time.h>
#include <sys/uio.h>
#include <sys/wait.h>
#include <unistd.h>

enum act { MAKES, PAIRS, BINDS, CONNECTS, LISTENS, ACCEPTS, SENDS, RECEIVES, SHUTS, SETS, GETS };
/* What goes with a message, and what comes with one before its bytes. */
typedef struct { const void *bytes; size_t count; const struct sockaddr *to; socklen_t length; } message;
typedef struct { int32_t flags; socklen_t length; uint8_t from[sizeof(struct sockaddr_storage)]; } received;
#define TWO(a, b) ((uint32_t)(a) | (int64_t)(b) << 32)

static long receive(const question *q, uint8_t *out) {
  received *head = (received *)out;
  memset(head, 0, sizeof *head);
  struct iovec part = {out + sizeof *head, q->room - sizeof *head};
  struct msghdr m = {.msg_name = head->from, .msg_namelen = sizeof head->from, .msg_iov = &part, .msg_iovlen = 1};
  long r = KERNEL(SYS_recvmsg, q->at, &m, (int32_t)q->b);
  head->flags = m.msg_flags & (MSG_TRUNC | MSG_EOR | MSG_OOB | MSG_CTRUNC);
  head->length = m.msg_namelen;
  return r;
}
static long send_message(const question *q) {
  const message *m = q->bytes;
  return KERNEL(SYS_sendto, q->at, m->bytes, m->count, (int32_t)q->b | MSG_NOSIGNAL, m->to, m->length);
}
/* A new socket is kept for who asked, and is no part of the answer. */
static long keep_made(long made) { return made < 0 ? made : (slots[me].made[0] = (int)made, 0); }
long call_net(const question *q, uint8_t *out) {
  enum { QUIET = SOCK_NONBLOCK | SOCK_CLOEXEC };
  int one = (int32_t)q->b, two = (int32_t)(q->b >> 32);
  const int32_t *kind = q->bytes;
  socklen_t length = (socklen_t)q->room;
  long r;
  switch (q->a) {
  case MAKES: return keep_made(KERNEL(SYS_socket, kind[0], kind[1] | QUIET, kind[2]));
  case PAIRS: return KERNEL(SYS_socketpair, kind[0], kind[1] | QUIET, kind[2], slots[me].made);
  case BINDS: return KERNEL(SYS_bind, q->at, q->bytes, q->length);
  case CONNECTS: return KERNEL(SYS_connect, q->at, q->bytes, q->length);
  case LISTENS: return KERNEL(SYS_listen, q->at, one);
  case ACCEPTS: return keep_made(KERNEL(SYS_accept4, q->at, NULL, NULL, QUIET));
  case SENDS: return send_message(q);
  case RECEIVES: return receive(q, out);
  case SHUTS: return KERNEL(SYS_shutdown, q->at, one);
  case SETS: return KERNEL(SYS_setsockopt, q->at, one, two, q->bytes, q->length);
  default:
    r = KERNEL(SYS_getsockopt, q->at, one, two, out, &length);
    return r < 0 ? r : (long)length;
  }
}
size_t bytes_of_net(const question *q, long result) {
  size_t bytes = q->a == RECEIVES ? sizeof(received) + (size_t)result : q->a == GETS ? (size_t)result : 0;
  return bytes < q->room ? bytes : q->room;
}

static int64_t net(enum act act, int real, int64_t b, const void *bytes, size_t length) {
  return ask(&(question){.what = ASK_NET, .at = real, .a = act, .b = b, .bytes = bytes, .length = length}, NULL, NULL);
}
/* A number for a socket that the host made, or of a rerun did. */
static int number_of(int made, int type) {
  int fd = takes_door(run.replays ? -1 : made);
  if (!run.replays) KERNEL(SYS_close, made);
  if (fd < 0) return fd;
  opened_at(fd)->kind = NET;
  if (type & SOCK_CLOEXEC) (void)fcntl(fd, F_SETFD, FD_CLOEXEC);
  if (type & SOCK_NONBLOCK) (void)fcntl(fd, F_SETFL, O_NONBLOCK);
  return fd;
}
int new_net(int domain, int type, int protocol) {
  int32_t kind[3] = {domain, type & ~(SOCK_NONBLOCK | SOCK_CLOEXEC), protocol};
  if (net(MAKES, 0, 0, kind, sizeof kind)) return -1;
  return number_of(slots[me].made[0], type);
}
int new_nets(int domain, int type, int protocol, int fds[2]) {
  int32_t kind[3] = {domain, type & ~(SOCK_NONBLOCK | SOCK_CLOEXEC), protocol};
  if (net(PAIRS, 0, 0, kind, sizeof kind)) return -1;
  int second = slots[me].made[1];
  fds[0] = number_of(slots[me].made[0], type);
  fds[1] = number_of(second, type);
  return fds[0] < 0 || fds[1] < 0 ? -1 : 0;
}

int bind_net(int fd, const struct sockaddr *to, socklen_t length) {
  return (int)net(BINDS, opened_at(fd)->real, 0, to, length);
}
int listen_net(int fd, int count) { return (int)net(LISTENS, opened_at(fd)->real, (uint32_t)count, NULL, 0); }
int shut_net(int fd, int how) { return (int)net(SHUTS, opened_at(fd)->real, (uint32_t)how, NULL, 0); }

/* Waits until a socket is ready, as long as its options say: false with an error where it is not. */
static bool await_net(const opened_file *f, short events) {
  int64_t nanos = events == POLLIN ? f->in_nanos : f->out_nanos;
  struct pollfd door = {.fd = f->real, .events = events};
  for (;;) {
    await_doors(&door, 1, nanos ? nanos : -1);
    if (door.revents) return true;
    if (!was_cut()) return errno = EAGAIN, false;
    if (is_interrupted(!nanos)) return false;
  }
}
/* The host says at the second attempt what came of the first. */
int connect_net(int fd, const struct sockaddr *to, socklen_t length) {
  const opened_file *f = opened_at(fd);
  while (net(CONNECTS, f->real, 0, to, length)) {
    if (f->nonblock || (errno != EINPROGRESS && errno != EAGAIN)) return -1;
    if (errno == EAGAIN) (void)poll(NULL, 0, 2); /* the server of a path has no room */
    else if (!await_net(f, POLLOUT)) return errno = errno == EAGAIN ? EINPROGRESS : errno, -1;
  }
  return 0;
}
int accept_net(int fd, int flags) {
  const opened_file *f = opened_at(fd);
  for (;;) {
    if (!f->nonblock && !await_net(f, POLLIN)) return -1;
    if (!net(ACCEPTS, f->real, 0, NULL, 0)) return number_of(slots[me].made[0], flags);
    if (f->nonblock || errno != EAGAIN) return -1;
  }
}

ssize_t send_net(int fd, const void *bytes, size_t count, int flags, const struct sockaddr *to, socklen_t length) {
  const opened_file *f = opened_at(fd);
  bool waits = !f->nonblock && !(flags & MSG_DONTWAIT);
  size_t done = 0;
  forget_told(f);
  digest(bytes, count);
  if (to) digest(to, length);
  do {
    message m = {(const char *)bytes + done, count - done, to, to ? length : 0};
    int64_t n = ask(&(question){.what = ASK_NET, .at = f->real, .a = SENDS, .b = flags | MSG_DONTWAIT, .bytes = &m},
                    NULL, NULL);
    if (n < 0 && errno == EAGAIN && waits && await_net(f, POLLOUT)) continue;
    if (n < 0) return done ? (ssize_t)done : -1;
    done += (size_t)n;
  } while (done < count && waits);
  return (ssize_t)done;
}
/* One message, or some of a stream: how long it is, of which `count` bytes are there at most. */
ssize_t receive_net(int fd, void *bytes, size_t count, int flags, struct sockaddr *from, socklen_t *length, int *said) {
  const opened_file *f = opened_at(fd);
  bool waits = !f->nonblock && !(flags & MSG_DONTWAIT);
  struct { received head; uint8_t bytes[PIECE - sizeof(received)]; } got;
  size_t most = count < sizeof got.bytes ? count : sizeof got.bytes;
  int64_t n;
  forget_told(f);
  for (;;) {
    if (waits && !await_net(f, POLLIN)) return -1;
    n = ask(&(question){.what = ASK_NET, .at = f->real, .a = RECEIVES, .b = flags | MSG_DONTWAIT,
                        .room = sizeof got.head + most}, &got, NULL);
    if (n >= 0) break;
    if (errno != EAGAIN || !waits) return -1;
  }
  memcpy(bytes, got.bytes, (size_t)n < most ? (size_t)n : most);
  if (from && length) memcpy(from, got.head.from, got.head.length < *length ? got.head.length : *length);
  if (length) *length = got.head.length;
  if (said) *said = got.head.flags;
  return n;
}

/* Messages in parts. */
static uint8_t *room_for(const struct msghdr *m, size_t *all) {
  *all = 0;
  for (size_t i = 0; i < m->msg_iovlen; i++) *all += m->msg_iov[i].iov_len;
  lock_run();
  uint8_t *room = detio_heap_malloc(*all + 1);
  unlock_run();
  if (!room) ends(OURS, "out of memory");
  return room;
}
static void give_back(uint8_t *room) {
  lock_run();
  detio_heap_free(room);
  unlock_run();
}
/* What goes with a message beside its bytes. */
bool has_control(const struct msghdr *m) {
  if (m->msg_controllen)
    uncovered("control", "a message with descriptors or other control data is not covered: refused, in a rerun too");
  return m->msg_controllen;
}
ssize_t send_parts(int fd, const struct msghdr *m, int flags) {
  size_t all, at = 0;
  if (has_control(m)) return errno = EOPNOTSUPP, -1;
  uint8_t *room = room_for(m, &all);
  for (size_t i = 0; i < m->msg_iovlen; at += m->msg_iov[i++].iov_len)
    memcpy(room + at, m->msg_iov[i].iov_base, m->msg_iov[i].iov_len);
  ssize_t n = send_net(fd, room, all, flags, m->msg_name, m->msg_namelen);
  give_back(room);
  return n;
}
ssize_t receive_parts(int fd, struct msghdr *m, int flags) {
  size_t all, at = 0;
  uint8_t *room = room_for(m, &all);
  ssize_t n = receive_net(fd, room, all, flags, m->msg_name, &m->msg_namelen, &m->msg_flags);
  for (size_t i = 0; n > 0 && i < m->msg_iovlen && at < (size_t)n; at += m->msg_iov[i++].iov_len) {
    size_t left = (size_t)n - at, here = m->msg_iov[i].iov_len;
    memcpy(m->msg_iov[i].iov_base, room + at, left < here ? left : here);
  }
  if (n >= 0 && (m->msg_flags & MSG_CTRUNC))
    uncovered("control came", "descriptors or other control data that came with a message are dropped, in a rerun too");
  m->msg_controllen = 0;
  give_back(room);
  return n;
}

int set_net(int fd, int level, int option, const void *value, socklen_t length) {
  opened_file *f = opened_at(fd);
  if (net(SETS, f->real, TWO(level, option), value, length)) return -1;
  if (level == SOL_SOCKET && (option == SO_RCVTIMEO || option == SO_SNDTIMEO) && length >= sizeof(struct timeval)) {
    const struct timeval *t = value;
    *(option == SO_RCVTIMEO ? &f->in_nanos : &f->out_nanos) = t->tv_sec * (int64_t)1000000000 + t->tv_usec * 1000;
  }
  return 0;
}
int get_net(int fd, int level, int option, void *value, socklen_t *length) {
  uint8_t bytes[512];
  size_t there = 0;
  if (ask(&(question){.what = ASK_NET, .at = opened_at(fd)->real, .a = GETS, .b = TWO(level, option),
                      .room = *length < sizeof bytes ? *length : sizeof bytes}, bytes, &there) < 0)
    return -1;
  memcpy(value, bytes, there);
  *length = (socklen_t)there;
  return 0;
}

/* Addresses of hosts, which the C library looks up in files and asks others for. An answer has its code, and then of
 * each address what `told` has, the address and the name. */
typedef struct { int32_t flags, family, type, protocol; uint32_t length, name; } told;
static size_t put(uint8_t *at, const void *bytes, size_t length) {
  memcpy(at, bytes, length);
  return length;
}
static long look_up(const question *q, uint8_t *out) {
  static int (*next)(const char *, const char *, const struct addrinfo *, struct addrinfo **);
  if (!next) next = (int (*)(const char *, const char *, const struct addrinfo *, struct addrinfo **))
      dlsym(RTLD_NEXT, "getaddrinfo");
  struct addrinfo *found = NULL;
  int32_t code = next(q->path, q->second, q->length ? q->bytes : NULL, &found);
  size_t at = put(out, &code, sizeof code);
  for (const struct addrinfo *it = code ? NULL : found; it; it = it->ai_next) {
    told t = {it->ai_flags, it->ai_family, it->ai_socktype, it->ai_protocol, it->ai_addrlen,
              it->ai_canonname ? (uint32_t)strlen(it->ai_canonname) + 1 : 0};
    if (at + sizeof t + t.length + t.name > q->room) break;
    at += put(out + at, &t, sizeof t);
    at += put(out + at, it->ai_addr, t.length);
    if (t.name) at += put(out + at, it->ai_canonname, t.name);
  }
  return (long)at;
}
/* A child of a moment looks it up, so that the program's own memory is as in a rerun, which does not. */
long call_hosts(const question *q, uint8_t *out) {
  int ends[2];
  long at = 0, n, child;
  if ((n = KERNEL(SYS_pipe2, ends, O_CLOEXEC)) < 0) return n;
  if ((child = KERNEL(SYS_clone, 0, 0)) == 0) {
    at = look_up(q, out);
    KERNEL(SYS_write, ends[1], out, at);
    KERNEL(SYS_exit_group, 0);
  }
  KERNEL(SYS_close, ends[1]);
  while (child > 0 && (n = KERNEL(SYS_read, ends[0], out + at, (long)q->room - at)) > 0) at += n;
  KERNEL(SYS_close, ends[0]);
  if (child > 0) KERNEL(SYS_wait4, child, NULL, __WALL, NULL);
  return child < 0 ? child : at >= (long)sizeof(int32_t) ? at : -EIO;
}
/* One address of an answer, as the C library has them, so that it can free them. */
static struct addrinfo *taken_from(const uint8_t *at, const told *t) {
  struct addrinfo *it = calloc(1, sizeof *it + t->length);
  if (!it) return NULL;
  struct sockaddr *address = (struct sockaddr *)(it + 1);
  *it = (struct addrinfo){t->flags, t->family, t->type, t->protocol, t->length, address, NULL, NULL};
  memcpy(it + 1, at, t->length);
  if (t->name) it->ai_canonname = strdup((const char *)at + t->length);
  return it;
}
EXPORT int getaddrinfo(const char *node, const char *service, const struct addrinfo *hints, struct addrinfo **to) {
  NEXT(getaddrinfo);
  OFF(next(node, service, hints, to));
  uint8_t bytes[8192];
  struct addrinfo given, **last = to;
  size_t length = 0, at = sizeof(int32_t);
  int32_t code;
  told t;
  memset(&given, 0, sizeof given);
  if (hints) given.ai_flags = hints->ai_flags, given.ai_family = hints->ai_family;
  if (hints) given.ai_socktype = hints->ai_socktype, given.ai_protocol = hints->ai_protocol;
  if (ask(&(question){.what = ASK_HOSTS, .path = node, .second = service, .bytes = &given,
                      .length = hints ? sizeof given : 0, .room = sizeof bytes}, bytes, &length) < 0)
    return EAI_SYSTEM;
  memcpy(&code, bytes, sizeof code);
  for (*to = NULL; !code && at + sizeof t <= length; at += t.length + t.name, last = &(*last)->ai_next) {
    memcpy(&t, bytes + at, sizeof t);
    at += sizeof t;
    if (!(*last = taken_from(bytes + at, &t))) return EAI_MEMORY;
  }
  return code;
}
