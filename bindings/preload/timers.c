/* timerfd: what is due is reckoned by clocks that are read as outcomes. */
#define _GNU_SOURCE
#include "preload.h"

#include <fcntl.h>
#include <poll.h>
#include <string.h>
#include <sys/timerfd.h>

typedef struct {
  clockid_t clock;
  int64_t next, every; /* of the clock; next: 0 where it is not set */
  uint64_t due;        /* how often it was over, when that was looked at */
} timer;
enum { SECOND = 1000000000 };

static int64_t nanos_of(const struct timespec *t) { return t->tv_sec * (int64_t)SECOND + t->tv_nsec; }
static struct timespec time_of(int64_t nanos) { return (struct timespec){nanos / SECOND, nanos % SECOND}; }
int64_t recorded_now(clockid_t clock) {
  struct timespec now = {0, 0};
  (void)clock_gettime(clock, &now);
  return nanos_of(&now);
}
static bool is_time(const struct timespec *t) { return t->tv_sec >= 0 && t->tv_nsec >= 0 && t->tv_nsec < SECOND; }

/* The timer of a number, or NULL with an error. */
static timer *timer_at(int fd) {
  const opened_file *f = opened_at(fd);
  errno = f->kind == NONE ? EBADF : EINVAL;
  return f->kind == TIMER ? f->object : NULL;
}
EXPORT int timerfd_create(int clock, int flags) {
  NEXT(timerfd_create);
  OFF(next(clock, flags));
  void *object;
  bool known = clock == CLOCK_REALTIME || clock == CLOCK_MONOTONIC || clock == CLOCK_BOOTTIME;
  if (!known || (flags & ~(TFD_CLOEXEC | TFD_NONBLOCK))) return errno = EINVAL, -1;
  int fd = new_number(TIMER, sizeof(timer), &object, flags);
  if (fd >= 0) ((timer *)object)->clock = clock;
  return fd;
}
/* What is left of a timer now. */
static struct itimerspec left_of(const timer *t, int64_t now) {
  int64_t left = t->next && t->next > now ? t->next - now : 0;
  if (t->next && !left) left = t->every ? t->every - (now - t->next) % t->every : 1;
  return (struct itimerspec){time_of(t->every), time_of(left)};
}
EXPORT int timerfd_gettime(int fd, struct itimerspec *to) {
  NEXT(timerfd_gettime);
  OFF(next(fd, to));
  timer *t = timer_at(fd);
  if (!t) return -1;
  *to = left_of(t, recorded_now(t->clock));
  return 0;
}
EXPORT int timerfd_settime(int fd, int how, const struct itimerspec *time, struct itimerspec *old) {
  NEXT(timerfd_settime);
  OFF(next(fd, how, time, old));
  timer *t = timer_at(fd);
  if (!t || !is_time(&time->it_value) || !is_time(&time->it_interval)) return -1;
  int64_t now = recorded_now(t->clock), first = nanos_of(&time->it_value);
  if (old) *old = left_of(t, now);
  turn();
  t->next = !first ? 0 : how & TFD_TIMER_ABSTIME ? first : now + first;
  t->every = nanos_of(&time->it_interval);
  t->due = 0;
  for (int w; (w = first_waiter(t)) >= 0;) unpark(w);
  forget_told(NULL);
  look_again();
  turn_end();
  return 0;
}

/* How often a timer is over now. */
static uint64_t due_at(const timer *t, int64_t now) {
  if (!t->next || now < t->next) return 0;
  return 1 + (t->every ? (uint64_t)((now - t->next) / t->every) : 0);
}
short ready_timer(const opened_file *f, short events) {
  return ((const timer *)f->object)->due ? events & (POLLIN | POLLRDNORM) : 0;
}
/* The time until the first of the timers among these, which are looked at now: -1 where there is none. */
int64_t until_timers(const struct pollfd *fds, size_t count) {
  int64_t least = -1;
  for (size_t i = 0; i < count; i++) {
    const opened_file *f = opened_at(fds[i].fd);
    timer *t = f->kind == TIMER ? f->object : NULL;
    if (!t || !t->next) continue;
    int64_t now = recorded_now(t->clock), left = t->next > now ? t->next - now : 0;
    t->due = due_at(t, now);
    if (least < 0 || left < least) least = left;
  }
  return least;
}
ssize_t read_timer(const opened_file *f, void *to, size_t room) {
  timer *t = f->object;
  uint64_t due;
  if (room < sizeof due) return errno = EINVAL, -1;
  for (;;) {
    int64_t now = recorded_now(t->clock);
    struct timespec then = time_of(t->next);
    turn();
    due = due_at(t, now);
    if (due || f->nonblock) break;
    if (t->next) {
      slots[me].light = LIGHTER;
      (void)wait_until(t, t->clock, &then);
    } else {
      (void)park_lightly(t, "what a timerfd says", LIGHTER);
      turn_end();
    }
    if (is_interrupted(true)) return -1;
  }
  if (due) t->next = t->every ? t->next + (int64_t)due * t->every : 0;
  t->due = 0;
  forget_told(f);
  turn_end();
  if (!due) return errno = EAGAIN, -1;
  memcpy(to, &due, sizeof due);
  return sizeof due;
}
