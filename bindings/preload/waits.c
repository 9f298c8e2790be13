/* Waits for signals: for those that threads send, and for those that come from outside, which end them as outcomes. */
#define _GNU_SOURCE
#include "preload.h"

#include <poll.h>
#include <string.h>
#include <sys/signalfd.h>
#include <sys/syscall.h>

/* A signal that the host has for a wait: its bytes are what the outcome has. */
typedef struct { int32_t number, code, pid, value; } taken;
enum { BITS_OF_TAKEN = sizeof(taken) / sizeof(int16_t) };
typedef struct { uint64_t set; const struct timespec *until; taken got; } wait;

/* Waits at the host for one of these, which the thread blocks. */
static void await_blocked(void *given) {
  wait *w = given;
  struct signalfd_siginfo about;
  struct pollfd doors[2] = {{.fd = (int)KERNEL(SYS_signalfd4, -1, &w->set, 8, SFD_NONBLOCK | SFD_CLOEXEC),
                             .events = POLLIN}};
  if (wait_at_host(doors, 1, w->until) &&
      KERNEL(SYS_read, doors[0].fd, &about, sizeof about) == sizeof about)
    w->got = (taken){(int32_t)about.ssi_signo, about.ssi_code, (int32_t)about.ssi_pid, about.ssi_int};
  KERNEL(SYS_close, doors[0].fd);
}
/* .. or for one that it does not block. */
static void await_open(void *given) {
  struct pollfd doors[1];
  (void)given;
  (void)wait_at_host(doors, 0, NULL);
}
static void fill(siginfo_t *to, const taken *t) {
  memset(to, 0, sizeof *to);
  to->si_signo = t->number;
  to->si_code = t->code;
  to->si_pid = t->pid;
  to->si_value.sival_int = t->value;
}

/* Waits for one of a set: its number, or an error below 0. */
static int await_signal(const sigset_t *set, siginfo_t *to, const struct timespec *time) {
  int64_t nanos = time ? now_in_recording() + time->tv_sec * (int64_t)1000000000 + time->tv_nsec : 0;
  struct timespec until = {nanos / 1000000000, nanos % 1000000000};
  wait w = {.until = time ? &until : NULL};
  memcpy(&w.set, set, sizeof w.set);
  for (;;) {
    turn();
    slots[me].awaited = 0;
    if (take_awaited(w.set, to)) break;
    slots[me].awaited = w.set;
    slots[me].light = LIGHTER;
    (void)wait_outside(NULL, await_blocked, &w, (int16_t *)&w.got, BITS_OF_TAKEN);
    bool cut = was_cut();
    turn();
    slots[me].awaited = 0;
    if (!w.got.number && take_awaited(w.set, to)) break;
    turn_end();
    if (w.got.number) return fill(to, &w.got), w.got.number;
    if (is_interrupted(false)) return -EINTR;
    if (!cut && time) return -EAGAIN;
  }
  turn_end();
  return to->si_signo;
}
EXPORT int sigwait(const sigset_t *set, int *number) {
  NEXT(sigwait);
  OFF(next(set, number));
  siginfo_t about;
  int got;
  do got = await_signal(set, &about, NULL); while (got == -EINTR);
  *number = got;
  return 0;
}
EXPORT int sigtimedwait(const sigset_t *set, siginfo_t *about, const struct timespec *time) {
  NEXT(sigtimedwait);
  OFF(next(set, about, time));
  siginfo_t here;
  if (time && (time->tv_nsec < 0 || time->tv_nsec >= 1000000000)) return errno = EINVAL, -1;
  int got = await_signal(set, about ? about : &here, time);
  return got < 0 ? (errno = -got, -1) : got;
}
EXPORT int sigwaitinfo(const sigset_t *set, siginfo_t *about) { return sigtimedwait(set, about, NULL); }

EXPORT int sigsuspend(const sigset_t *set) {
  NEXT(sigsuspend);
  OFF(next(set));
  uint64_t kept = slots[me].blocked, open;
  memcpy(&open, set, sizeof open);
  set_blocked(open);
  while (!is_interrupted(false)) {
    turn();
    slots[me].light = LIGHTER;
    (void)wait_outside(NULL, await_open, NULL, NULL, 0);
  }
  set_blocked(kept);
  return errno = EINTR, -1;
}
EXPORT int pause(void) {
  sigset_t set;
  (void)pthread_sigmask(SIG_BLOCK, NULL, &set);
  return sigsuspend(&set);
}
/* The two that have this name: of a set of signals, and of one signal. */
EXPORT int pause_for_set(int set) __asm__("sigpause");
int pause_for_set(int set) {
  sigset_t all;
  sigemptyset(&all);
  memcpy(&all, &set, sizeof set);
  return sigsuspend(&all);
}
EXPORT int pause_for_one(int number) __asm__("__xpg_sigpause");
int pause_for_one(int number) {
  sigset_t all;
  (void)pthread_sigmask(SIG_BLOCK, NULL, &all);
  return sigdelset(&all, number) ? -1 : sigsuspend(&all);
}
EXPORT int __sigpause(int given, int is_one) { return is_one ? pause_for_one(given) : pause_for_set(given); }

EXPORT int sigpending(sigset_t *set) {
  NEXT(sigpending);
  OFF(next(set));
  uint64_t at_host = 0;
  memset(set, 0, sizeof *set);
  if (asks(ASK_SIGNALS, 0, NULL, 0, &at_host, sizeof at_host)) return -1;
  at_host |= signals_there();
  memcpy(set, &at_host, sizeof at_host);
  return 0;
}
