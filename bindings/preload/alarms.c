/* Timers that have a signal come. A recording sets them at the host, and their signals are outcomes; a rerun sets none.
 */
#define _GNU_SOURCE
#include "preload.h"

#include <string.h>
#include <sys/syscall.h>
#include <sys/time.h>
#include <unistd.h>

/* What the host does with a timer: its system call, with what goes in and what comes back. */
long call_timer(long call, int64_t given, const void *in, uint8_t *out) {
  int32_t id = (int32_t)given, how = (int32_t)(given >> 32);
  switch (call) {
  case SYS_setitimer: return KERNEL(SYS_setitimer, id, in, out);
  case SYS_getitimer: return KERNEL(SYS_getitimer, id, out);
  case SYS_timer_create: return KERNEL(SYS_timer_create, id, how ? in : NULL, out);
  case SYS_timer_settime: return KERNEL(SYS_timer_settime, id, how, in, out);
  case SYS_timer_gettime: return KERNEL(SYS_timer_gettime, id, out);
  default: return KERNEL(call, id); /* its overruns, and its end */
  }
}
static int64_t timed(long call, int id, int how, const void *in, size_t length, void *out, size_t room) {
  return ask(&(question){.what = ASK_TIMER, .a = call, .b = (uint32_t)id | (int64_t)how << 32, .bytes = in,
                         .length = length, .room = room}, out, NULL);
}

EXPORT int setitimer(__itimer_which_t which, const struct itimerval *to, struct itimerval *old) {
  NEXT(setitimer);
  OFF(next(which, to, old));
  static const struct itimerval none;
  struct itimerval before;
  if (!to) to = &none;
  if (timed(SYS_setitimer, which, 0, to, sizeof *to, &before, sizeof before)) return -1;
  if (to->it_value.tv_sec || to->it_value.tv_usec) timer_is_set = true;
  if (old) *old = before;
  return 0;
}
EXPORT int getitimer(__itimer_which_t which, struct itimerval *to) {
  NEXT(getitimer);
  OFF(next(which, to));
  return (int)timed(SYS_getitimer, which, 0, NULL, 0, to, sizeof *to);
}
EXPORT unsigned alarm(unsigned seconds) {
  NEXT(alarm);
  OFF(next(seconds));
  struct itimerval to = {{0, 0}, {seconds, 0}}, old;
  if (setitimer(ITIMER_REAL, &to, &old)) return 0;
  bool more = old.it_value.tv_usec >= 500000 || (!old.it_value.tv_sec && old.it_value.tv_usec);
  return (unsigned)old.it_value.tv_sec + more;
}
EXPORT useconds_t ualarm(useconds_t micros, useconds_t every) {
  NEXT(ualarm);
  OFF(next(micros, every));
  struct itimerval to = {{every / 1000000, every % 1000000}, {micros / 1000000, micros % 1000000}}, old;
  if (setitimer(ITIMER_REAL, &to, &old)) return (useconds_t)-1;
  return (useconds_t)(old.it_value.tv_sec * 1000000 + old.it_value.tv_usec);
}

/* Timers with a number each, which is that of the recording. */
EXPORT int timer_create(clockid_t clock, struct sigevent *then, timer_t *to) {
  NEXT(timer_create);
  OFF(next(clock, then, to));
  struct sigevent event;
  int id = 0;
  if (then && then->sigev_notify != SIGEV_SIGNAL && then->sigev_notify != SIGEV_NONE) {
    uncovered("timer_create", "timer_create that begins threads is not covered: refused, in a rerun too");
    return errno = ENOTSUP, -1;
  }
  memset(&event, 0, sizeof event);
  if (then) {
    event.sigev_notify = then->sigev_notify;
    event.sigev_signo = then->sigev_signo;
    event.sigev_value = then->sigev_value;
  }
  if (timed(SYS_timer_create, clock, then != NULL, &event, sizeof event, &id, sizeof id)) return -1;
  *to = (timer_t)(intptr_t)id;
  return 0;
}
static int number_of(timer_t timer) { return (int)(intptr_t)timer; }
EXPORT int timer_settime(timer_t timer, int how, const struct itimerspec *to, struct itimerspec *old) {
  NEXT(timer_settime);
  OFF(next(timer, how, to, old));
  struct itimerspec before;
  if (!to) return errno = EINVAL, -1;
  if (timed(SYS_timer_settime, number_of(timer), how, to, sizeof *to, &before, sizeof before)) return -1;
  if (to->it_value.tv_sec || to->it_value.tv_nsec) timer_is_set = true;
  if (old) *old = before;
  return 0;
}
EXPORT int timer_gettime(timer_t timer, struct itimerspec *to) {
  NEXT(timer_gettime);
  OFF(next(timer, to));
  return (int)timed(SYS_timer_gettime, number_of(timer), 0, NULL, 0, to, sizeof *to);
}
EXPORT int timer_getoverrun(timer_t timer) {
  NEXT(timer_getoverrun);
  OFF(next(timer));
  return (int)timed(SYS_timer_getoverrun, number_of(timer), 0, NULL, 0, NULL, 0);
}
EXPORT int timer_delete(timer_t timer) {
  NEXT(timer_delete);
  OFF(next(timer));
  return (int)timed(SYS_timer_delete, number_of(timer), 0, NULL, 0, NULL, 0);
}
