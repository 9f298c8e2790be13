/* Locks, in the order of turns: their state is in the program's own objects, and whoever waited first goes on first. */
#define _GNU_SOURCE
#include "preload.h"

#include <fcntl.h>
#include <linux/futex.h>
#include <semaphore.h>
#include <stdio.h>
#include <string.h>
#include <sys/random.h>
#include <sys/resource.h>
#include <sys/shm.h>
#include <sys/syscall.h>
#include <sys/sysinfo.h>
#include <sys/time.h>
#include <sys/times.h>
#include <sys/utsname.h>
#include <threads.h>
#include <unistd.h>

/* A mutex as we use the C library's: its owner's slot + 1, how often that has it, and its kind where that has it. */
typedef struct { int owner, count, unused[2], kind; } mutex;

/* At the turn: frees a mutex for the one that waited first. */
static void pass_on(mutex *m) {
  int w = first_waiter(m);
  m->owner = w < 0 ? 0 : w + 1;
  m->count = w < 0 ? 0 : 1;
  if (w >= 0) unpark(w);
}

/* Who has the mutex at this place, or -1. */
int mutex_owner(const void *at) { return ((const mutex *)at)->owner - 1; }

/* At the turn: takes a mutex that this thread may have already: an error, or 0 where it has it now, or -1 where it is
 * another's. */
static int take_now(mutex *m, bool tries) {
  int kind = m->kind & 3;
  if (!m->owner) {
    m->owner = me + 1;
    m->count = 1;
    return 0;
  }
  if (m->owner != me + 1) return -1;
  if (kind == PTHREAD_MUTEX_RECURSIVE) return m->count++, 0;
  return tries ? EBUSY : kind == PTHREAD_MUTEX_ERRORCHECK ? EDEADLK : -1;
}

EXPORT int pthread_mutex_lock(pthread_mutex_t *p) {
  NEXT(pthread_mutex_lock);
  OFF(next(p));
  turn();
  int code = take_now((mutex *)p, false);
  if (code < 0) park(p, "mutex"), code = 0;
  turn_end();
  return code;
}
EXPORT int pthread_mutex_trylock(pthread_mutex_t *p) {
  NEXT(pthread_mutex_trylock);
  OFF(next(p));
  turn();
  int code = take_now((mutex *)p, true);
  turn_end();
  return code < 0 ? EBUSY : code;
}
EXPORT int pthread_mutex_clocklock(pthread_mutex_t *p, clockid_t clock, const struct timespec *until) {
  NEXT(pthread_mutex_clocklock);
  OFF(next(p, clock, until));
  turn();
  int code = take_now((mutex *)p, false);
  if (code < 0) {
    bool had = wait_until(p, clock, until);
    return had ? 0 : ETIMEDOUT;
  }
  turn_end();
  return code;
}
EXPORT int pthread_mutex_timedlock(pthread_mutex_t *p, const struct timespec *until) {
  return pthread_mutex_clocklock(p, CLOCK_REALTIME, until);
}
EXPORT int pthread_mutex_unlock(pthread_mutex_t *p) {
  NEXT(pthread_mutex_unlock);
  OFF(next(p));
  mutex *m = (mutex *)p;
  int kind = m->kind & 3, code = 0;
  bool looks = kind == PTHREAD_MUTEX_RECURSIVE || kind == PTHREAD_MUTEX_ERRORCHECK;
  turn();
  if (looks && m->owner != me + 1) code = EPERM;
  else if (!looks || --m->count == 0) pass_on(m);
  turn_end();
  return code;
}

/* Spin locks, as the C library has them here: 1 is free. */
EXPORT int pthread_spin_lock(pthread_spinlock_t *p) {
  NEXT(pthread_spin_lock);
  OFF(next(p));
  turn();
  while (*p != 1) park((void *)p, "spin lock");
  *p = 0;
  turn_end();
  return 0;
}
EXPORT int pthread_spin_trylock(pthread_spinlock_t *p) {
  NEXT(pthread_spin_trylock);
  OFF(next(p));
  turn();
  bool had = *p == 1;
  if (had) *p = 0;
  turn_end();
  return had ? 0 : EBUSY;
}
EXPORT int pthread_spin_unlock(pthread_spinlock_t *p) {
  NEXT(pthread_spin_unlock);
  OFF(next(p));
  turn();
  *p = 1;
  int w = first_waiter((void *)p);
  if (w >= 0) unpark(w);
  turn_end();
  return 0;
}

/* Conditions: who waits is in the slots, and a condition has no state of ours. */
EXPORT int pthread_cond_wait(pthread_cond_t *c, pthread_mutex_t *p) {
  NEXT(pthread_cond_wait);
  OFF(next(c, p));
  mutex *m = (mutex *)p;
  pthread_testcancel();
  turn();
  int count = m->count;
  slots[me].then = m;
  pass_on(m);
  (void)park_lightly(c, "condition", LIGHT);
  slots[me].then = NULL;
  m->count = count;
  turn_end();
  pthread_testcancel();
  return 0;
}

/* At the turn: who waits for a condition waits for its mutex now, or has it. */
void move_on(int w) {
  mutex *m = slots[w].then;
  if (!m) {
    unpark(w);
  } else if (!m->owner) {
    m->owner = w + 1;
    m->count = 1;
    unpark(w);
  } else {
    slots[w].on = m;
    slots[w].waits_for = "mutex";
    slots[w].ticket = next_ticket();
  }
}
EXPORT int pthread_cond_signal(pthread_cond_t *c) {
  NEXT(pthread_cond_signal);
  OFF(next(c));
  turn();
  int w = first_waiter(c);
  if (w >= 0) move_on(w);
  turn_end();
  return 0;
}
EXPORT int pthread_cond_broadcast(pthread_cond_t *c) {
  NEXT(pthread_cond_broadcast);
  OFF(next(c));
  turn();
  for (int w; (w = first_waiter(c)) >= 0;) move_on(w);
  turn_end();
  return 0;
}
EXPORT int pthread_cond_clockwait(pthread_cond_t *c, pthread_mutex_t *p, clockid_t clock,
                                  const struct timespec *until) {
  NEXT(pthread_cond_clockwait);
  OFF(next(c, p, clock, until));
  mutex *m = (mutex *)p;
  if (until->tv_nsec < 0 || until->tv_nsec >= 1000000000) return EINVAL;
  turn();
  int count = m->count;
  slots[me].then = NULL;
  pass_on(m);
  slots[me].light = LIGHT;
  bool woken = wait_until(c, clock, until) || was_cut();
  turn();
  if (take_now(m, false) < 0) park(m, "mutex");
  m->count = count;
  turn_end();
  return woken ? 0 : ETIMEDOUT;
}
EXPORT int pthread_cond_timedwait(pthread_cond_t *c, pthread_mutex_t *p, const struct timespec *until) {
  bool monotonic = c->__data.__wrefs & 2;
  return pthread_cond_clockwait(c, p, monotonic ? CLOCK_MONOTONIC : CLOCK_REALTIME, until);
}

/* Semaphores: their value. */
EXPORT int sem_wait(sem_t *s) {
  NEXT(sem_wait);
  OFF(next(s));
  for (;;) {
    turn();
    bool free = *(unsigned *)s != 0;
    if (free) --*(unsigned *)s;
    bool cut = !free && park_lightly(s, "semaphore", LIGHT);
    turn_end();
    if (!cut) return 0;
    if (is_interrupted(true)) return -1;
  }
}
EXPORT int sem_trywait(sem_t *s) {
  NEXT(sem_trywait);
  OFF(next(s));
  turn();
  bool had = *(unsigned *)s != 0;
  if (had) --*(unsigned *)s;
  turn_end();
  return had ? 0 : (errno = EAGAIN, -1);
}
EXPORT int sem_clockwait(sem_t *s, clockid_t clock, const struct timespec *until) {
  NEXT(sem_clockwait);
  OFF(next(s, clock, until));
  if (until->tv_nsec < 0 || until->tv_nsec >= 1000000000) return errno = EINVAL, -1;
  for (;;) {
    turn();
    if (*(unsigned *)s) break;
    slots[me].light = LIGHT;
    bool woken = wait_until(s, clock, until);
    if (!was_cut()) return woken ? 0 : (errno = ETIMEDOUT, -1);
    if (is_interrupted(false)) return -1;
  }
  --*(unsigned *)s;
  turn_end();
  return 0;
}
EXPORT int sem_timedwait(sem_t *s, const struct timespec *until) { return sem_clockwait(s, CLOCK_REALTIME, until); }
EXPORT int sem_post(sem_t *s) {
  NEXT(sem_post);
  OFF(next(s));
  turn();
  int w = first_waiter(s);
  if (w >= 0) unpark(w);
  else ++*(unsigned *)s;
  turn_end();
  return 0;
}
EXPORT int sem_getvalue(sem_t *s, int *value) {
  NEXT(sem_getvalue);
  OFF(next(s, value));
  turn();
  *value = *(int *)s;
  turn_end();
  return 0;
}

/* Readers and writers: -1 is a writer, else how many readers there are. A writer that waits goes before readers that
 * come later where the lock says so; elsewhere who reads already may read once more. */
static bool must_wait(pthread_rwlock_t *p, bool writes) {
  int n = *(int *)p, w = first_waiter(p);
  bool writer_first = p->__data.__flags == PTHREAD_RWLOCK_PREFER_WRITER_NONRECURSIVE_NP;
  return writes ? n != 0 : n < 0 || (writer_first && w >= 0 && slots[w].flag);
}
static int take_rwlock(pthread_rwlock_t *p, bool writes, bool tries, clockid_t clock, const struct timespec *until) {
  int *n = (int *)p;
  turn();
  while (must_wait(p, writes)) {
    if (tries) {
      turn_end();
      return EBUSY;
    }
    slots[me].flag = writes;
    if (!until) {
      park(p, "lock of readers and writers");
      continue;
    }
    bool woken = wait_until(p, clock, until);
    turn();
    if (!woken && must_wait(p, writes)) {
      turn_end();
      return ETIMEDOUT;
    }
  }
  *n = writes ? -1 : *n + 1;
  turn_end();
  return 0;
}
#define RWLOCK(name, writes, tries)                  \
  EXPORT int name(pthread_rwlock_t *p) {             \
    NEXT(name);                                      \
    OFF(next(p));                                    \
    return take_rwlock(p, writes, tries, 0, NULL);   \
  }
RWLOCK(pthread_rwlock_rdlock, false, false)
RWLOCK(pthread_rwlock_wrlock, true, false)
RWLOCK(pthread_rwlock_tryrdlock, false, true)
RWLOCK(pthread_rwlock_trywrlock, true, true)
#define RWLOCK_CLOCK(name, writes)                                                                \
  EXPORT int name(pthread_rwlock_t *p, clockid_t clock, const struct timespec *until) {           \
    NEXT(name);                                                                                   \
    OFF(next(p, clock, until));                                                                   \
    return take_rwlock(p, writes, false, clock, until);                                           \
  }
RWLOCK_CLOCK(pthread_rwlock_clockrdlock, false)
RWLOCK_CLOCK(pthread_rwlock_clockwrlock, true)
EXPORT int pthread_rwlock_timedrdlock(pthread_rwlock_t *p, const struct timespec *until) {
  return pthread_rwlock_clockrdlock(p, CLOCK_REALTIME, until);
}
EXPORT int pthread_rwlock_timedwrlock(pthread_rwlock_t *p, const struct timespec *until) {
  return pthread_rwlock_clockwrlock(p, CLOCK_REALTIME, until);
}
EXPORT int pthread_rwlock_unlock(pthread_rwlock_t *p) {
  NEXT(pthread_rwlock_unlock);
  OFF(next(p));
  int *n = (int *)p, w;
  turn();
  *n = *n < 0 ? 0 : *n - 1;
  if (!*n) while ((w = first_waiter(p)) >= 0) unpark(w);
  turn_end();
  return 0;
}

/* Barriers: who is there, how many it needs, and which round it is. */
typedef struct { unsigned in, need; } barrier;
EXPORT int pthread_barrier_init(pthread_barrier_t *p, const pthread_barrierattr_t *attr, unsigned count) {
  NEXT(pthread_barrier_init);
  OFF(next(p, attr, count));
  if (!count) return EINVAL;
  memset(p, 0, sizeof *p);
  *(barrier *)p = (barrier){0, count};
  return 0;
}
EXPORT int pthread_barrier_destroy(pthread_barrier_t *p) {
  NEXT(pthread_barrier_destroy);
  OFF(next(p));
  return 0;
}
EXPORT int pthread_barrier_wait(pthread_barrier_t *p) {
  NEXT(pthread_barrier_wait);
  OFF(next(p));
  barrier *b = (barrier *)p;
  turn();
  bool last = ++b->in == b->need;
  if (last) {
    b->in = 0;
    for (int w; (w = first_waiter(b)) >= 0;) unpark(w);
  } else {
    park(b, "barrier");
  }
  turn_end();
  return last ? PTHREAD_BARRIER_SERIAL_THREAD : 0;
}

/* Once: 0 not yet, 1 one thread is at it, 2 done. */
static void end_once(pthread_once_t *p, int state) {
  turn();
  *p = state;
  for (int w; (w = first_waiter(p)) >= 0;) unpark(w);
  turn_end();
}
static void give_up_once(void *p) { end_once(p, 0); }
EXPORT int pthread_once(pthread_once_t *p, void (*does)(void)) {
  NEXT(pthread_once);
  OFF(next(p, does));
  turn();
  while (*p == 1) park(p, "first call of pthread_once");
  bool first = *p == 0;
  if (first) *p = 1;
  turn_end();
  if (!first) return 0;
  pthread_cleanup_push(give_up_once, p);
  does();
  pthread_cleanup_pop(0);
  end_once(p, 2);
  return 0;
}

/* The locks of C11 are those of POSIX. */
static int as_c(int code) {
  return code == 0 ? thrd_success : code == EBUSY ? thrd_busy : code == ETIMEDOUT ? thrd_timedout : thrd_error;
}
EXPORT int mtx_lock(mtx_t *m) { return as_c(pthread_mutex_lock((pthread_mutex_t *)m)); }
EXPORT int mtx_trylock(mtx_t *m) { return as_c(pthread_mutex_trylock((pthread_mutex_t *)m)); }
EXPORT int mtx_timedlock(mtx_t *m, const struct timespec *until) {
  return as_c(pthread_mutex_timedlock((pthread_mutex_t *)m, until));
}
EXPORT int mtx_unlock(mtx_t *m) { return as_c(pthread_mutex_unlock((pthread_mutex_t *)m)); }
EXPORT int cnd_wait(cnd_t *c, mtx_t *m) { return as_c(pthread_cond_wait((pthread_cond_t *)c, (pthread_mutex_t *)m)); }
EXPORT int cnd_timedwait(cnd_t *c, mtx_t *m, const struct timespec *until) {
  return as_c(pthread_cond_timedwait((pthread_cond_t *)c, (pthread_mutex_t *)m, until));
}
EXPORT int cnd_signal(cnd_t *c) { return as_c(pthread_cond_signal((pthread_cond_t *)c)); }
EXPORT int cnd_broadcast(cnd_t *c) { return as_c(pthread_cond_broadcast((pthread_cond_t *)c)); }
EXPORT void call_once(once_flag *p, void (*does)(void)) { (void)pthread_once((pthread_once_t *)p, does); }

/* Futexes by `syscall`: parked at their word. */
static long wake_futex(const void *word, int most) {
  long woken = 0;
  turn();
  for (int w; woken < most && (w = first_waiter(word)) >= 0; woken++) unpark(w);
  turn_end();
  return woken;
}
static long wait_futex(int *word, int op, int value, const struct timespec *time) {
  clockid_t clock = op & FUTEX_CLOCK_REALTIME ? CLOCK_REALTIME : CLOCK_MONOTONIC;
  struct timespec until;
  turn();
  if (__atomic_load_n(word, __ATOMIC_SEQ_CST) != value) {
    turn_end();
    return errno = EAGAIN, -1;
  }
  if (!time) {
    bool cut = park_lightly(word, "futex", LIGHT);
    turn_end();
    return cut ? (errno = EINTR, -1) : 0;
  }
  until = *time;
  if ((op & FUTEX_CMD_MASK) == FUTEX_WAIT && !run.replays) { /* it says for how long, and not until when */
    KERNEL(SYS_clock_gettime, CLOCK_MONOTONIC, &until);
    until.tv_sec += time->tv_sec;
    until.tv_nsec += time->tv_nsec;
    if (until.tv_nsec >= 1000000000) until.tv_sec++, until.tv_nsec -= 1000000000;
  }
  slots[me].light = LIGHT;
  bool woken = wait_until(word, clock, &until);
  return was_cut() ? (errno = EINTR, -1) : woken ? 0 : (errno = ETIMEDOUT, -1);
}
static long futex(int *word, int op, int value, const struct timespec *time) {
  switch (op & FUTEX_CMD_MASK) {
  case FUTEX_WAKE:
  case FUTEX_WAKE_BITSET: return wake_futex(word, value);
  case FUTEX_WAIT:
  case FUTEX_WAIT_BITSET: return wait_futex(word, op, value, time);
  default:
    uncovered("futex", "futex operation %d is not covered: refused, in a rerun too", op & FUTEX_CMD_MASK);
    return errno = ENOSYS, -1;
  }
}

/* System calls that change or say what is of this process alone, in a rerun too. */
static bool is_of_process(long n) {
  static const short all[] = {SYS_membarrier, SYS_rseq, SYS_set_robust_list, SYS_get_robust_list, SYS_prctl,
                              SYS_arch_prctl, SYS_mprotect, SYS_munmap, SYS_madvise, SYS_mlock, SYS_munlock, SYS_brk,
                              SYS_mbind, SYS_set_mempolicy, SYS_get_mempolicy, SYS_rt_sigprocmask, SYS_rt_sigreturn,
                              SYS_sigaltstack, SYS_sched_yield, SYS_exit, SYS_exit_group,
                              SYS_sched_getattr, SYS_sched_setattr};
  for (size_t i = 0; i < sizeof all / sizeof *all; i++)
    if (all[i] == n) return true;
  return false;
}
/* .. and those that make what the library does not know: another thread or process, or a ring of calls. */
static bool makes_stranger(long n) {
  return n == SYS_clone || n == SYS_clone3 || n == SYS_fork || n == SYS_vfork || n == SYS_io_uring_setup;
}
/* .. and those that have a function here: whether this is one. */
static bool is_function(long n, long a, long b, long c, long d, long *result) {
  switch (n) {
  case SYS_open: return *result = open((const char *)a, (int)b, (mode_t)c), true; /* as jemalloc does */
  case SYS_openat: return *result = openat((int)a, (const char *)b, (int)c, (mode_t)d), true;
  case SYS_read: return *result = read((int)a, (void *)b, (size_t)c), true;
  case SYS_write: return *result = write((int)a, (const void *)b, (size_t)c), true;
  case SYS_sched_getaffinity: return *result = affinity((size_t)b, (void *)c), true; /* as libnuma does */
  case SYS_shmget: return *result = shmget((key_t)a, (size_t)b, (int)c), true;
  case SYS_shmat: return *result = (long)shmat((int)a, (const void *)b, (int)c), true;
  case SYS_shmdt: return *result = shmdt((const void *)a), true;
  case SYS_shmctl: return *result = shmctl((int)a, (int)b, (void *)c), true;
  case SYS_gettid: return *result = gettid(), true;
  case SYS_getpid: return *result = getpid(), true;
  case SYS_close: return *result = close((int)a), true; /* as libuv does, of numbers of ours */
  case SYS_getppid: return *result = getppid(), true;
  case SYS_kill: return *result = kill((pid_t)a, (int)b), true;
  case SYS_clock_gettime: return *result = clock_gettime((clockid_t)a, (struct timespec *)b), true;
  case SYS_clock_getres: return *result = clock_getres((clockid_t)a, (struct timespec *)b), true;
  case SYS_gettimeofday: return *result = gettimeofday((struct timeval *)a, NULL), true;
  case SYS_time: return *result = time((time_t *)a), true;
  case SYS_times: return *result = times((struct tms *)a), true;
  case SYS_getrusage: return *result = getrusage((int)a, (struct rusage *)b), true;
  case SYS_sysinfo: return *result = sysinfo((struct sysinfo *)a), true;
  case SYS_uname: return *result = uname((struct utsname *)a), true;
  default: return false;
  }
}
EXPORT TAKES_ALL long syscall(long n, ...) {
  va_list given;
  va_start(given, n);
  long a = va_arg(given, long), b = va_arg(given, long), c = va_arg(given, long);
  long d = va_arg(given, long), e = va_arg(given, long), f = va_arg(given, long);
  va_end(given);
  if (takes_part()) {
    char kind[32];
    long r;
    NOTE_CALLER();
    if (n == SYS_futex) return futex((int *)a, (int)b, (int)c, (const struct timespec *)d);
    if (n == SYS_getrandom) return getrandom((void *)a, (size_t)b, (unsigned)c);
    if (n == SYS_tgkill) return tgkill((pid_t)a, (pid_t)b, (int)c);
    if (is_function(n, a, b, c, d, &r)) return r;
    snprintf(kind, sizeof kind, "system call %ld", n);
    if (makes_stranger(n)) {
      uncovered(kind, "%s is not covered: refused, in a rerun too", kind);
      return errno = ENOSYS, -1;
    }
    bool of_thread = n == SYS_sched_getattr || n == SYS_sched_setattr;
    if (of_thread && a == slots[me].tid) a = 0; /* this thread, whose number is the recording's */
    if (!is_of_process(n))
      uncovered(kind, "%s goes past the run: it is not recorded, and a rerun makes it again", kind);
  }
  long r = kernel(n, a, b, c, d, e, f);
  return r < 0 && r > -4096 ? (errno = (int)-r, -1) : r;
}
