/* eventfd and epoll: objects of the run alone, whose numbers are the machine's. */
#define _GNU_SOURCE
#include "preload.h"

#include <fcntl.h>
#include <poll.h>
#include <string.h>
#include <sys/epoll.h>
#include <sys/eventfd.h>
#include <unistd.h>

struct event { uint64_t count; bool one_by_one; };
typedef struct {
  const opened_file *file;
  uint32_t events, told; /* told: of an edge, what was said since the last read or write */
  epoll_data_t data;
  bool off;              /* it was said, and is to be said once */
} interest;
struct epoll { interest all[NUMBERS]; };

static unsigned changes; /* of what epolls look at */
static bool any_edge;

void look_again(void) {
  changes++;
  wake_pollers();
}

/* A number for an object of this kind, or -1. */
int new_number(enum kind kind, size_t size, void **object, int flags) {
  detio_call c = {.kind = DETIO_OPEN, .choice = DETIO_READ_WRITE};
  int fd = (int)plain_call(&c, "/.std", 5, NULL, 0);
  if (fd < 0) return fd;
  opened_file *f = new_opened(fd, kind, -1);
  lock_run();
  *object = detio_heap_calloc(1, size);
  unlock_run();
  if (!*object) ends(OURS, "out of memory");
  f->object = *object;
  if (flags & O_CLOEXEC) (void)fcntl(fd, F_SETFD, FD_CLOEXEC);
  if (flags & O_NONBLOCK) (void)fcntl(fd, F_SETFL, O_NONBLOCK);
  return fd;
}

EXPORT int eventfd(unsigned value, int flags) {
  NEXT(eventfd);
  OFF(next(value, flags));
  void *object;
  if (flags & ~(EFD_SEMAPHORE | EFD_CLOEXEC | EFD_NONBLOCK)) return errno = EINVAL, -1;
  int fd = new_number(EVENT, sizeof(struct event), &object, flags);
  if (fd >= 0) *(struct event *)object = (struct event){value, flags & EFD_SEMAPHORE};
  return fd;
}
/* At the turn: who waits for it, by a read, a write or a poll, looks again. */
static void wake_all(const struct event *e) {
  for (int w; (w = first_waiter(e)) >= 0;) unpark(w);
  forget_told(NULL);
  wake_pollers();
}
short ready_event(const opened_file *f, short events) {
  const struct event *e = f->object;
  short is = (e->count ? POLLIN | POLLRDNORM : 0) | (e->count < UINT64_MAX - 1 ? POLLOUT | POLLWRNORM : 0);
  return is & events;
}
/* Waits where it must: whether it may not. At the turn, which it has no more where it may not. */
static bool may_wait(const opened_file *f) {
  if (f->nonblock) {
    turn_end();
    errno = EAGAIN;
    return false;
  }
  if (!park_lightly(f->object, "what an eventfd counts", LIGHTER)) return true;
  turn_end();
  if (is_interrupted(true)) return false;
  turn();
  return true;
}
ssize_t read_event(const opened_file *f, void *to, size_t room) {
  struct event *e = f->object;
  if (room < sizeof e->count) return errno = EINVAL, -1;
  turn();
  while (!e->count)
    if (!may_wait(f)) return -1;
  uint64_t got = e->one_by_one ? 1 : e->count;
  e->count -= got;
  wake_all(e);
  turn_end();
  memcpy(to, &got, sizeof got);
  return sizeof got;
}
ssize_t write_event(const opened_file *f, const void *of, size_t length) {
  struct event *e = f->object;
  uint64_t more = UINT64_MAX;
  if (length >= sizeof more) memcpy(&more, of, sizeof more);
  if (more == UINT64_MAX) return errno = EINVAL, -1;
  turn();
  while (UINT64_MAX - 1 - e->count < more)
    if (!may_wait(f)) return -1;
  e->count += more;
  wake_all(e);
  turn_end();
  return sizeof more;
}
EXPORT int eventfd_read(int fd, eventfd_t *value) { return read(fd, value, sizeof *value) == sizeof *value ? 0 : -1; }
EXPORT int eventfd_write(int fd, eventfd_t value) { return write(fd, &value, sizeof value) == sizeof value ? 0 : -1; }

EXPORT int epoll_create1(int flags) {
  NEXT(epoll_create1);
  OFF(next(flags));
  void *object;
  if (flags & ~EPOLL_CLOEXEC) return errno = EINVAL, -1;
  return new_number(EPOLL, sizeof(struct epoll), &object, flags);
}
EXPORT int epoll_create(int size) { return size <= 0 ? (errno = EINVAL, -1) : epoll_create1(0); }

/* A read, a write or a close of this file (or of something in memory: NULL): its edges are said again. */
void forget_told(const opened_file *file) {
  for (int fd = 0; any_edge && fd < NUMBERS; fd++) {
    const opened_file *f = opened_at(fd);
    for (int i = 0; f->kind == EPOLL && i < NUMBERS; i++) {
      interest *it = &((struct epoll *)f->object)->all[i];
      bool inside_run = it->file && (it->file->kind == PIPE || it->file->kind >= EVENT);
      if (file ? it->file == file : inside_run) it->told = 0;
    }
  }
}

static interest *interest_in(struct epoll *e, const opened_file *file) {
  for (int i = 0; i < NUMBERS; i++)
    if (e->all[i].file == file) return &e->all[i];
  return NULL;
}
/* Whether epoll takes what this is. */
static int may_look_at(const opened_file *f) {
  if (f->kind == EPOLL) uncovered("epoll in epoll", "an epoll in an epoll is not covered: refused, in a rerun too");
  if (f->kind == EPOLL) return EINVAL;
  return f->kind == MEMORY || (f->kind == HOST && !f->waits) ? EPERM : 0;
}
EXPORT int epoll_ctl(int at, int what, int fd, struct epoll_event *of) {
  NEXT(epoll_ctl);
  OFF(next(at, what, fd, of));
  opened_file *e = opened_at(at), *f = opened_at(fd);
  if (e->kind == NONE || f->kind == NONE) return errno = EBADF, -1;
  if (e->kind != EPOLL || e == f || (!of && what != EPOLL_CTL_DEL)) return errno = EINVAL, -1;
  int error = may_look_at(f);
  turn();
  interest *it = interest_in(e->object, f);
  if (!error && what == EPOLL_CTL_ADD && it) error = EEXIST;
  if (!error && what != EPOLL_CTL_ADD && !it) error = ENOENT;
  if (!error && !it && !(it = interest_in(e->object, NULL))) error = ENOSPC;
  if (!error && what == EPOLL_CTL_DEL) *it = (interest){0};
  else if (!error) *it = (interest){.file = f, .events = of->events, .data = of->data};
  if (!error && what != EPOLL_CTL_DEL) any_edge = any_edge || of->events & EPOLLET;
  look_again();
  turn_end();
  return error ? (errno = error, -1) : 0;
}

/* At the turn: what an epoll looks at, as poll has it; `which` is the interest of each. */
static nfds_t look_for(struct epoll *e, struct pollfd *fds, int *which) {
  nfds_t count = 0;
  for (int i = 0; i < NUMBERS; i++) {
    interest *it = &e->all[i];
    int fd = it->file ? number_for(it->file) : -1;
    if (it->file && fd < 0) *it = (interest){0}; /* it was closed */
    short events = (short)(it->events & (EPOLLIN | EPOLLPRI | EPOLLOUT | EPOLLRDHUP | EPOLLRDNORM | EPOLLWRNORM));
    if (!it->file || it->off || (it->told & (EPOLLHUP | EPOLLERR))) continue;
    which[count] = i;
    fds[count++] = (struct pollfd){fd, (short)(events & ~it->told), 0};
  }
  return count;
}
/* At the turn: what is said of those that are ready. */
static int tell_ready(struct epoll *e, const struct pollfd *fds, const int *which, nfds_t count,
                      struct epoll_event *to, int room) {
  int told = 0;
  for (nfds_t i = 0; i < count && told < room; i++) {
    interest *it = &e->all[which[i]];
    if (!fds[i].revents || !it->file) continue;
    to[told++] = (struct epoll_event){.events = (uint16_t)fds[i].revents, .data = it->data};
    if (it->events & EPOLLET) it->told |= (uint16_t)fds[i].revents;
    it->off = it->events & EPOLLONESHOT;
  }
  return told;
}
/* What is left of a wait that looks again, as the recording had it: timers may be there now, which go by its clocks. */
static int64_t recorded_left(int64_t until) {
  int64_t left = until - now_in_recording();
  (void)ask(&(question){.what = ASK_LEFT, .bytes = &left, .length = sizeof left, .room = sizeof left}, &left, NULL);
  return left < 1 ? 1 : left;
}
static int wait_epoll(int at, struct epoll_event *to, int room, int64_t nanos) {
  const opened_file *f = opened_at(at);
  struct pollfd fds[NUMBERS];
  int which[NUMBERS], n;
  if (f->kind == NONE) return errno = EBADF, -1;
  if (f->kind != EPOLL || room <= 0) return errno = EINVAL, -1;
  int64_t until = now_in_recording() + nanos, left = nanos;
  for (;; left = nanos > 0 ? recorded_left(until) : nanos) {
    turn();
    unsigned seen = changes;
    nfds_t count = look_for(f->object, fds, which);
    turn_end();
    n = poll_all(fds, count, left, &changes, seen);
    if (n == LOOKS_AGAIN) continue;
    if (n < 0) return n;
    turn();
    n = tell_ready(f->object, fds, which, count, to, room);
    turn_end();
    return n;
  }
}
EXPORT int epoll_wait(int at, struct epoll_event *to, int room, int millis) {
  NEXT(epoll_wait);
  OFF(next(at, to, room, millis));
  return wait_epoll(at, to, room, millis < 0 ? -1 : millis * (int64_t)1000000);
}
EXPORT int epoll_pwait(int at, struct epoll_event *to, int room, int millis, const sigset_t *set) {
  NEXT(epoll_pwait);
  OFF(next(at, to, room, millis, set));
  uint64_t kept;
  if (!begin_masked(set, &kept)) return -1;
  return end_masked(set, kept, wait_epoll(at, to, room, millis < 0 ? -1 : millis * (int64_t)1000000));
}
EXPORT int epoll_pwait2(int at, struct epoll_event *to, int room, const struct timespec *time, const sigset_t *set) {
  NEXT(epoll_pwait2);
  OFF(next(at, to, room, time, set));
  int64_t nanos = time ? time->tv_sec * (int64_t)1000000000 + time->tv_nsec : -1;
  uint64_t kept;
  return begin_masked(set, &kept) ? end_masked(set, kept, wait_epoll(at, to, room, nanos)) : -1;
}
