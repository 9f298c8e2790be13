/* The host, by the rules of docs/doors.md: files, and TCP at 127.0.0.1, with waits that have a bound. */
#define _GNU_SOURCE
#include "detio_host.h"

#include <arpa/inet.h>
#include <errno.h>
#include <fcntl.h>
#include <netinet/in.h>
#include <poll.h>
#include <pthread.h>
#include <signal.h>
#include <string.h>
#include <sys/socket.h>
#include <sys/stat.h>
#include <sys/time.h>
#include <time.h>
#include <unistd.h>

/* For how many milliseconds at least a connection waits for its listener's system. */
enum { LEAST_WAIT = 10 };

uint32_t detio_host_error(int error) {
  switch (error) {
  case ENOENT: return DETIO_ENOENT;
  case EACCES:
  case EPERM: return DETIO_EACCES;
  case EEXIST: return DETIO_EEXIST;
  case EAGAIN: return DETIO_EAGAIN;
  case EINTR: return DETIO_EINTR;
  case EPIPE: return DETIO_EPIPE;
  case ECONNREFUSED: return DETIO_ECONNREFUSED;
  case ECONNRESET: return DETIO_ECONNRESET;
  case EADDRINUSE: return DETIO_EADDRINUSE;
  case ETIMEDOUT: return DETIO_ETIMEDOUT;
  case EINVAL: return DETIO_EINVAL;
  default: return DETIO_EIO;
  }
}

static void fails(detio_outcome *came, int error) {
  memset(came, 0, sizeof *came);
  came->error = detio_host_error(error);
}

static struct sockaddr_in loopback(uint16_t port) {
  struct sockaddr_in address;
  memset(&address, 0, sizeof address);
  address.sin_family = AF_INET;
  address.sin_port = htons(port);
  address.sin_addr.s_addr = htonl(INADDR_LOOPBACK);
  return address;
}

/* An error after something was opened: it is closed again. */
static int gives_up(int opened) {
  int error = errno;
  close(opened);
  errno = error;
  return -1;
}

static int64_t milliseconds_now(void) {
  struct timespec now = {0};
  clock_gettime(CLOCK_MONOTONIC, &now);
  return (int64_t)now.tv_sec * 1000 + now.tv_nsec / 1000000;
}

/* Whether a descriptor is ready within so many milliseconds, whatever signals come. */
static bool ready_within(int at, short events, unsigned wait) {
  int64_t end = milliseconds_now() + wait;
  for (;;) {
    struct pollfd it = {.fd = at, .events = events};
    int64_t left = end - milliseconds_now();
    int found = poll(&it, 1, left > 0 ? (int)left : 0);
    if (found > 0) return true;
    if (found == 0 || errno != EINTR) return false;
  }
}

/* The kernel waits for the other side of a FIFO without a bound. Here it is opened at once to be read, and to be
 * written once somebody reads it, or not at all. */
static int open_within(const char *path, int how, unsigned wait) {
  static const struct timespec pause = {.tv_nsec = 1000000};
  struct stat status;
  if (stat(path, &status) < 0 || !S_ISFIFO(status.st_mode)) return open(path, how, 0666);
  for (int64_t end = milliseconds_now() + wait;; nanosleep(&pause, NULL)) {
    int opened = open(path, how | O_NONBLOCK, 0666);
    if (opened >= 0 || errno != ENXIO) return opened;
    if (milliseconds_now() >= end) return errno = ETIMEDOUT, -1;
  }
}

static int open_file(const detio_call *call, const char *path, unsigned wait) {
  bool writes = call->choice != DETIO_READ_ONLY;
  bool appends = writes && (call->flags & DETIO_APPEND);
  bool cuts = writes && (call->flags & DETIO_TRUNCATE);
  int how = O_CLOEXEC | (!writes ? O_RDONLY : call->choice == DETIO_WRITE_ONLY ? O_WRONLY : O_RDWR);
  if (appends) how |= O_APPEND;
  if (writes && (call->flags & DETIO_CREATE)) how |= O_CREAT;
  if (cuts && !appends) how |= O_TRUNC;
  int opened = open_within(path, how, wait);
  if (opened < 0 && errno == ENOENT && !writes && (call->flags & DETIO_CREATE)) {
    /* It is made by itself, and opened again. */
    int made = open(path, O_WRONLY | O_CREAT | O_CLOEXEC, 0666);
    if (made < 0) return -1;
    close(made);
    opened = open(path, how, 0666);
  }
  if (opened >= 0 && cuts && appends && ftruncate(opened, 0) < 0) return gives_up(opened);
  return opened;
}

/* A stream blocks, and its reads and writes wait no longer than this. */
static int bounded(int stream, unsigned wait) {
  struct timeval longest = {.tv_sec = wait / 1000, .tv_usec = (wait % 1000) * 1000};
  int how = fcntl(stream, F_GETFL);
  if (how < 0 || fcntl(stream, F_SETFL, how & ~O_NONBLOCK) < 0) return gives_up(stream);
  if (wait && (setsockopt(stream, SOL_SOCKET, SO_RCVTIMEO, &longest, sizeof longest) < 0 ||
               setsockopt(stream, SOL_SOCKET, SO_SNDTIMEO, &longest, sizeof longest) < 0))
    return gives_up(stream);
  return stream;
}

static int listen_at(uint64_t port, uint64_t *found) {
  if (port > 65535) return errno = EINVAL, -1;
  struct sockaddr_in address = loopback((uint16_t)port);
  socklen_t length = sizeof address;
  int yes = 1;
  int listener = socket(AF_INET, SOCK_STREAM | SOCK_CLOEXEC | SOCK_NONBLOCK, 0);
  if (listener < 0) return -1;
  if (setsockopt(listener, SOL_SOCKET, SO_REUSEADDR, &yes, sizeof yes) < 0 ||
      bind(listener, (struct sockaddr *)&address, sizeof address) < 0 || listen(listener, 128) < 0 ||
      getsockname(listener, (struct sockaddr *)&address, &length) < 0)
    return gives_up(listener);
  *found = ntohs(address.sin_port);
  return listener;
}

static int connect_to(uint64_t port, unsigned wait) {
  if (port > 65535) return errno = EINVAL, -1;
  struct sockaddr_in address = loopback((uint16_t)port);
  int stream = socket(AF_INET, SOCK_STREAM | SOCK_CLOEXEC | SOCK_NONBLOCK, 0);
  if (stream < 0) return -1;
  if (connect(stream, (struct sockaddr *)&address, sizeof address) < 0) {
    int error = ETIMEDOUT;
    socklen_t length = sizeof error;
    if (errno != EINPROGRESS) return gives_up(stream);
    if (ready_within(stream, POLLOUT, wait < LEAST_WAIT ? LEAST_WAIT : wait) &&
        getsockopt(stream, SOL_SOCKET, SO_ERROR, &error, &length) < 0)
      return gives_up(stream);
    if (error) return errno = error, gives_up(stream);
  }
  return bounded(stream, wait);
}

/* A connection of a listener that never waits by itself. */
static int accept_within(int listener, unsigned wait_to_accept, unsigned wait) {
  if (wait_to_accept) (void)ready_within(listener, POLLIN, wait_to_accept);
  int stream = accept4(listener, NULL, NULL, SOCK_CLOEXEC);
  return stream < 0 ? stream : bounded(stream, wait);
}

enum door_kind { FILE_DOOR, STREAM_DOOR, FIFO_DOOR };

/* What a door is: a FIFO is one that open_within opened. */
static enum door_kind kind_of(int door) {
  struct stat status;
  if (fstat(door, &status) < 0) return FILE_DOOR;
  if (S_ISSOCK(status.st_mode)) return STREAM_DOOR;
  return S_ISFIFO(status.st_mode) && (fcntl(door, F_GETFL) & O_NONBLOCK) ? FIFO_DOOR : FILE_DOOR;
}

/* Whether a FIFO cannot go on within its wait: that is EAGAIN. */
static bool stays(int door, short events, unsigned wait) {
  if (ready_within(door, events, wait)) return false;
  errno = EAGAIN;
  return true;
}

/* A wait of 0 is none. */
static ssize_t read_once(int door, unsigned wait, uint8_t *data, size_t count) {
  enum door_kind kind = kind_of(door);
  if (kind == FIFO_DOOR && stays(door, POLLIN, wait)) return -1;
  if (kind != STREAM_DOOR) return read(door, data, count);
  for (int64_t end = milliseconds_now() + wait;;) {
    ssize_t done = recv(door, data, count, wait ? 0 : MSG_DONTWAIT);
    if (done >= 0 || errno != EINTR || milliseconds_now() >= end) return done;
  }
}

/* A write to a FIFO that nobody reads fails: the signal that comes of it is blocked, and taken away, unless there was
 * one before. */
static ssize_t write_quietly(int door, const uint8_t *data, size_t count) {
  static const struct timespec now = {0};
  sigset_t broken, before, there;
  sigemptyset(&broken);
  sigaddset(&broken, SIGPIPE);
  sigemptyset(&there);
  pthread_sigmask(SIG_BLOCK, &broken, &before);
  sigpending(&there);
  ssize_t done = write(door, data, count);
  int error = errno;
  if (done < 0 && error == EPIPE && !sigismember(&there, SIGPIPE)) {
    while (sigtimedwait(&broken, NULL, &now) < 0 && errno == EINTR) {
    }
  }
  pthread_sigmask(SIG_SETMASK, &before, NULL);
  errno = error;
  return done;
}

static ssize_t write_once(int door, unsigned wait, const uint8_t *data, size_t count) {
  enum door_kind kind = kind_of(door);
  if (kind == FIFO_DOOR && stays(door, POLLOUT, wait)) return -1;
  if (kind != STREAM_DOOR) return write_quietly(door, data, count);
  for (int64_t end = milliseconds_now() + wait;;) {
    ssize_t done = send(door, data, count, MSG_NOSIGNAL | (wait ? 0 : MSG_DONTWAIT));
    if (done >= 0 || errno != EINTR || milliseconds_now() >= end) return done;
  }
}

static int64_t seek(int door, const detio_call *call) {
  static const int from[] = {SEEK_SET, SEEK_CUR, SEEK_END};
  if (call->choice > DETIO_END || (call->choice == DETIO_SET && call->number < 0)) return errno = EINVAL, -1;
  return lseek(door, call->number, from[call->choice]);
}

static int shut(int door, const detio_call *call) {
  static const int what[] = {SHUT_RD, SHUT_WR, SHUT_RDWR};
  if (call->choice > DETIO_SHUT_BOTH) return errno = EINVAL, -1;
  return shutdown(door, what[call->choice]);
}

/* What opens a door. */
static void reach_opening(const detio_outside *asked, int door, unsigned wait, uint8_t *data, size_t room,
                          detio_outcome *came) {
  int opened = -1;
  uint64_t value = 0;
  errno = EINVAL;
  if (asked->kind == DETIO_ASKS_OPEN) {
    if (asked->length < room && !memchr(data, 0, asked->length)) {
      data[asked->length] = 0;
      opened = open_file(&asked->call, (const char *)data, wait);
    }
  } else if (asked->kind == DETIO_ASKS_LISTEN) {
    opened = listen_at(asked->asked, &value);
  } else if (asked->kind == DETIO_ASKS_CONNECT) {
    opened = connect_to(asked->asked, wait);
  } else {
    opened = accept_within(door, asked->waits ? wait : 0, wait);
  }
  if (opened < 0) {
    fails(came, errno);
  } else {
    came->value = value;
    came->opened = (uint64_t)opened;
  }
}

void detio_host_reach(const detio_outside *asked, bool goes, uint64_t door, unsigned wait, uint8_t *data, size_t room,
                      detio_outcome *came) {
  if (wait > DETIO_WAIT_MOST) wait = DETIO_WAIT_MOST;
  unsigned longest = asked->waits ? wait : 0;
  int at = goes ? (int)door : -1;
  int64_t done = -1;
  memset(came, 0, sizeof *came);
  errno = EINVAL;
  switch (asked->kind) {
  case DETIO_ASKS_READ: done = asked->asked <= room ? read_once(at, longest, data, (size_t)asked->asked) : -1; break;
  case DETIO_ASKS_WRITE: done = write_once(at, longest, data, asked->length); break;
  case DETIO_ASKS_SEEK: done = seek(at, &asked->call); break;
  case DETIO_ASKS_SHUTDOWN: done = shut(at, &asked->call); break;
  case DETIO_ASKS_CLOSE:
    close(at);
    done = 0;
    break;
  default: reach_opening(asked, at, wait, data, room, came); return;
  }
  if (done < 0) {
    fails(came, errno);
    return;
  }
  came->value = (uint64_t)done;
  if (asked->kind == DETIO_ASKS_READ) came->length = (size_t)done;
}
