/* Readiness: of doors as the host has it, and of pipes and pairs by what is in them. Who waits for both is parked for
 * the outside, and is woken by who moves a byte in memory. */
#define _GNU_SOURCE
#include "preload.h"

#include <fcntl.h>
#include <poll.h>
#include <stdlib.h>
#include <string.h>
#include <sys/select.h>
#include <sys/syscall.h>

enum { MOST_POLLED = 64, PIPE_BYTES = 4096, PIPE_WHOLE = 512, PAIR_BYTES = 32768 };
static char pollers; /* where threads are parked until something in memory moves */

void join_ends(opened_file *one, opened_file *other, bool both_ways) {
  lock_run();
  channel *all = detio_heap_calloc(2, sizeof *all);
  unlock_run();
  if (!all) ends(OURS, "out of memory");
  all[0].most = both_ways ? PAIR_BYTES : PIPE_BYTES - PIPE_WHOLE + 1;
  all[1].most = PAIR_BYTES;
  one->in = other->out = &all[0];
  if (both_ways) other->in = one->out = &all[1];
}

void wake_pollers(void) {
  for (int w; (w = first_waiter(&pollers)) >= 0;) unpark(w);
}
/* Who waits at a channel, or at any by poll, looks again. */
static void wake_at(const channel *c) {
  for (int w; c && (w = first_waiter(c)) >= 0;) unpark(w);
  wake_pollers();
}
bool await_bytes(const opened_file *f) {
  if (!f->in) return true;
  turn();
  while (f->in->filled <= 0 && !f->in->writer_gone && !f->in->reader_gone) {
    if (!park_lightly(f->in, "what comes through a pipe", LIGHTER)) continue;
    turn_end();
    if (is_interrupted(true)) return false;
    turn();
  }
  turn_end();
  return true;
}
void note_moved(const opened_file *f, int64_t taken, int64_t put) {
  if (!f->in && !f->out) return;
  turn();
  if (f->in) f->in->filled -= taken;
  if (f->out) f->out->filled += put;
  forget_told(NULL);
  wake_at(put ? f->out : NULL);
  turn_end();
}
void note_closed(const opened_file *f, bool reads, bool writes) {
  if (!f->in && !f->out) return;
  turn();
  if (f->in && reads) f->in->reader_gone = true;
  if (f->out && writes) f->out->writer_gone = true;
  forget_told(NULL);
  wake_at(f->in);
  wake_at(f->out);
  turn_end();
}

/* What an end of a pipe or pair is ready for, of what is asked. */
static short ready_end(const opened_file *f, short events) {
  const channel *in = f->in, *out = f->out;
  short is = 0;
  bool pair = in && out;
  if (in && in->filled > 0) is |= POLLIN | POLLRDNORM;
  if (out && (out->filled < out->most || out->reader_gone)) is |= POLLOUT | POLLWRNORM;
  if (pair && in->writer_gone) is |= POLLIN | POLLRDNORM | POLLRDHUP;
  is &= events;
  if (in && in->writer_gone && (!pair || out->reader_gone)) is |= POLLHUP;
  if (!pair && out && out->reader_gone) is |= POLLERR;
  return is;
}

/* Whether the host says what this is ready for. */
static bool is_door(int fd) {
  const opened_file *f = opened_at(fd);
  if (f->kind == HOST) return f->waits;
  return f->kind == STREAM || f->kind == LISTENER || f->kind == NET || f->kind == STANDARD;
}
/* At the turn: what of these is ready in memory, how many they are; and of the others the doors. */
static int look_at(struct pollfd *fds, struct pollfd *doors, nfds_t count, bool *any_door) {
  int ready = 0;
  *any_door = false;
  for (nfds_t i = 0; i < count; i++) {
    const opened_file *f = opened_at(fds[i].fd);
    bool door = is_ours(fds[i].fd) && is_door(fds[i].fd);
    doors[i] = (struct pollfd){door ? f->real : -1, fds[i].events, 0};
    *any_door = *any_door || door;
    if (fds[i].fd < 0 || door) fds[i].revents = 0;
    else if (f->kind == NONE) fds[i].revents = POLLNVAL;
    else if (f->kind == PIPE) fds[i].revents = ready_end(f, fds[i].events);
    else if (f->kind == EVENT) fds[i].revents = ready_event(f, fds[i].events);
    else if (f->kind == TIMER) fds[i].revents = ready_timer(f, fds[i].events);
    else if (f->kind == EPOLL) fds[i].revents = 0;
    else fds[i].revents = fds[i].events & (POLLIN | POLLOUT | POLLRDNORM | POLLWRNORM);
    ready += fds[i].revents != 0;
  }
  return ready;
}

int64_t now_in_recording(void) {
  struct timespec now = {0, 0};
  if (!run.replays) KERNEL(SYS_clock_gettime, CLOCK_MONOTONIC, &now);
  return now.tv_sec * (int64_t)1000000000 + now.tv_nsec;
}
static struct timespec as_time(int64_t nanos) {
  return (struct timespec){nanos / 1000000000, nanos % 1000000000};
}

/* Waits at the host. */
typedef struct { struct pollfd *doors; nfds_t count; int64_t nanos; int16_t *bits; } readiness;
static void poll_doors(void *given) {
  readiness *r = given;
  struct pollfd all[MOST_POLLED + 1];
  struct timespec until = as_time(now_in_recording() + r->nanos);
  memcpy(all, r->doors, r->count * sizeof *all);
  bool ready = wait_at_host(all, r->count, r->nanos < 0 ? NULL : &until);
  for (nfds_t i = 0; i < r->count; i++) r->bits[i] = ready ? all[i].revents : 0;
}
static bool await_doors_or(const void *on, struct pollfd *doors, nfds_t count, int64_t nanos) {
  int16_t bits[MOST_POLLED] = {0};
  readiness r = {doors, count, nanos, bits};
  slots[me].light = LIGHTER;
  bool woken = wait_outside(on, poll_doors, &r, bits, count);
  for (nfds_t i = 0; i < count; i++) doors[i].revents = bits[i];
  return woken;
}
/* Waits until one of these doors is ready, or for so long (-1: for ever): what each is ready for. */
void await_doors(struct pollfd *doors, size_t count, int64_t nanos) {
  turn();
  (void)await_doors_or(NULL, doors, count, nanos);
}

static int combine(struct pollfd *fds, const struct pollfd *doors, nfds_t count) {
  int ready = 0;
  for (nfds_t i = 0; i < count; i++) {
    fds[i].revents |= doors[i].revents;
    ready += fds[i].revents != 0;
  }
  return ready;
}

/* Whether a timer is among these: then all times are reckoned by recorded clocks. */
static bool has_timer(const struct pollfd *fds, size_t count) {
  for (size_t i = 0; i < count; i++)
    if (opened_at(fds[i].fd)->kind == TIMER) return true;
  return false;
}
static int64_t now_for(bool timed) { return timed ? recorded_now(CLOCK_MONOTONIC) : now_in_recording(); }
/* At the turn, which it gives up: waits for so long (-1: for ever) until something in memory moves: whether it did. */
static bool await_memory(int64_t nanos) {
  struct timespec then = as_time(now_in_recording() + nanos);
  if (nanos >= 0) {
    slots[me].light = LIGHTER;
    return wait_until(&pollers, CLOCK_MONOTONIC, &then);
  }
  (void)park_lightly(&pollers, "what poll looks at", LIGHTER);
  turn_end();
  return true;
}

int poll_all(struct pollfd *fds, size_t count, int64_t nanos, const unsigned *changes, unsigned seen) {
  struct pollfd doors[MOST_POLLED];
  if (count > MOST_POLLED) {
    uncovered("poll", "poll of more than %d descriptors is not covered: refused, in a rerun too", MOST_POLLED);
    return errno = EINVAL, -1;
  }
  bool timed = has_timer(fds, count), over = nanos == 0, any_door;
  int64_t until = nanos < 0 ? -1 : now_for(timed) + nanos;
  for (;;) {
    int64_t left = nanos < 0 ? -1 : until - now_for(timed), timer = timed ? until_timers(fds, count) : -1;
    over = over || (timed && nanos > 0 && left <= 0);
    if (nanos >= 0 && left < 0) left = 0;
    if (timer >= 0 && (left < 0 || timer < left)) left = timer;
    turn();
    if (changes && *changes != seen) {
      turn_end();
      return LOOKS_AGAIN;
    }
    int ready = look_at(fds, doors, count, &any_door);
    if (any_door) {
      bool woken = await_doors_or(&pollers, doors, count, ready || over ? 0 : left) || was_cut();
      int all = combine(fds, doors, count);
      if (all || over) return all;
      if (is_interrupted(false)) return -1;
      if (!woken && !timed) return 0;
    } else if (ready || over) {
      turn_end();
      return ready;
    } else {
      over = !await_memory(left) && !was_cut() && !timed;
      if (is_interrupted(false)) return -1;
    }
  }
}
EXPORT int poll(struct pollfd *fds, nfds_t count, int millis) {
  NEXT(poll);
  OFF(next(fds, count, millis));
  return poll_all(fds, count, millis < 0 ? -1 : millis * (int64_t)1000000, NULL, 0);
}
EXPORT int __poll_chk(struct pollfd *fds, nfds_t count, int millis, size_t room) {
  if (count * sizeof *fds > room) abort();
  return poll(fds, count, millis);
}
static int64_t nanos_of(const struct timespec *time) {
  return time ? time->tv_sec * (int64_t)1000000000 + time->tv_nsec : -1;
}
EXPORT int __ppoll_chk(struct pollfd *fds, nfds_t count, const struct timespec *time, const sigset_t *mask,
                       size_t room) {
  if (count * sizeof *fds > room) abort();
  return ppoll(fds, count, time, mask);
}
EXPORT int ppoll(struct pollfd *fds, nfds_t count, const struct timespec *time, const sigset_t *mask) {
  NEXT(ppoll);
  OFF(next(fds, count, time, mask));
  uint64_t kept;
  return begin_masked(mask, &kept) ? end_masked(mask, kept, poll_all(fds, count, nanos_of(time), NULL, 0)) : -1;
}
static int select_all(int count, fd_set *in, fd_set *out, fd_set *other, int64_t nanos) {
  struct pollfd fds[64];
  nfds_t n = 0;
  int ready = 0;
  if (count < 0) return errno = EINVAL, -1;
  for (int fd = 0; fd < count && n < 64; fd++) {
    short events = (in && FD_ISSET(fd, in) ? POLLIN : 0) | (out && FD_ISSET(fd, out) ? POLLOUT : 0);
    if (events) fds[n++] = (struct pollfd){fd, events, 0};
  }
  if (poll_all(fds, n, nanos, NULL, 0) < 0) return -1;
  size_t bytes = ((size_t)count + 63) / 64 * 8; /* a set may be no longer than its numbers take */
  if (in) memset(in, 0, bytes);
  if (out) memset(out, 0, bytes);
  if (other) memset(other, 0, bytes);
  for (nfds_t i = 0; i < n; i++) {
    if (fds[i].revents & POLLNVAL) return errno = EBADF, -1;
    if (fds[i].events & POLLIN && fds[i].revents & (POLLIN | POLLHUP | POLLERR)) FD_SET(fds[i].fd, in), ready++;
    if (fds[i].events & POLLOUT && fds[i].revents & (POLLOUT | POLLERR)) FD_SET(fds[i].fd, out), ready++;
  }
  return ready;
}
EXPORT int select(int count, fd_set *in, fd_set *out, fd_set *other, struct timeval *time) {
  NEXT(select);
  OFF(next(count, in, out, other, time));
  int64_t nanos = time ? time->tv_sec * (int64_t)1000000000 + time->tv_usec * (int64_t)1000 : -1;
  return select_all(count, in, out, other, nanos);
}
EXPORT int pselect(int count, fd_set *in, fd_set *out, fd_set *other, const struct timespec *time,
                   const sigset_t *mask) {
  NEXT(pselect);
  OFF(next(count, in, out, other, time, mask));
  uint64_t kept;
  return begin_masked(mask, &kept) ? end_masked(mask, kept, select_all(count, in, out, other, nanos_of(time))) : -1;
}
