/* Threads: their slots are given in the order of turns, and are free again once a thread is joined. A thread leaves the
 * run after its last destructor, so keys and their destructors are ours. */
#define _GNU_SOURCE
#include "preload.h"

#include <limits.h>
#include <sched.h>
#include <stdlib.h>
#include <sys/syscall.h>
#include <threads.h>

/* The destructors of keys, which a thread runs itself, in the order of the keys. */
static void (*destructors[PTHREAD_KEYS_MAX])(void *);

EXPORT int pthread_key_create(pthread_key_t *key, void (*destructor)(void *)) {
  NEXT(pthread_key_create);
  int code = next(key, NULL);
  if (!code) destructors[*key] = destructor;
  return code;
}
EXPORT int pthread_key_delete(pthread_key_t key) {
  NEXT(pthread_key_delete);
  if (key < PTHREAD_KEYS_MAX) destructors[key] = NULL;
  return next(key);
}
EXPORT int tss_create(tss_t *key, tss_dtor_t destructor) {
  return pthread_key_create(key, destructor) ? thrd_error : thrd_success;
}
EXPORT void tss_delete(tss_t key) { (void)pthread_key_delete(key); }

/* One round over the keys: whether a destructor ran. */
static bool run_destructors(void) {
  bool ran = false;
  for (pthread_key_t key = 0; key < PTHREAD_KEYS_MAX; key++) {
    void (*destructor)(void *) = destructors[key];
    void *value = destructor ? pthread_getspecific(key) : NULL;
    if (!value) continue;
    pthread_setspecific(key, NULL);
    destructor(value);
    ran = true;
  }
  return ran;
}

typedef struct { void *(*begins)(void *); void *given; int slot; } start;

/* What a thread does last: destructors of thread-local objects, then of keys, as the C library would; then it leaves
 * the run. */
static void leave(void *given) {
  static void (*destroy_locals)(void);
  if (!destroy_locals) destroy_locals = (void (*)(void))dlsym(RTLD_DEFAULT, "__call_tls_dtors");
  if (destroy_locals) destroy_locals();
  for (int round = 0; round < PTHREAD_DESTRUCTOR_ITERATIONS && run_destructors(); round++) {
  }
  int i = (int)(intptr_t)given;
  if (!takes_part()) return;
  if (slots[i].digest) (void)asks(ASK_CLOSED, 0, NULL, 0, NULL, 0);
  turn();
  if (!others_alive()) { /* who leaves last ends the process, as in the C library, but while it has its number */
    turn_end();
    exit(0);
  }
  int waiter = first_waiter(&slots[i]);
  slots[i].state = slots[i].detached ? FREE : DONE;
  slots[i].parked = true;
  slots[i].pushes = 0;
  if (waiter >= 0) unpark(waiter);
  turn_leave();
  me = -1;
}

EXPORT _Noreturn void pthread_exit(void *result) {
  static void (*next)(void *);
  if (!next) next = (void (*)(void *))dlsym(RTLD_NEXT, "pthread_exit");
  if (takes_part() && me == 0) leave(NULL); /* the first thread began without us */
  next(result);
  __builtin_unreachable();
}

static void *run_thread(void *given) {
  start s = *(start *)given;
  void *result;
  inside++;
  lock_run();
  detio_heap_free(given);
  unlock_run();
  inside--;
  me = s.slot;
  slots[me].at_kernel = (pid_t)KERNEL(SYS_gettid, 0);
  thread_begins();
  pthread_cleanup_push(leave, (void *)(intptr_t)s.slot);
  result = s.begins(s.given);
  pthread_cleanup_pop(1);
  return result;
}

/* At the turn: a slot for a new thread, whose earlier thread may have been detached after it left. */
static int take_slot(bool detached) {
  int i = free_slot();
  if (i < 0) return i;
  slot *s = &slots[i];
  s->state = LIVE;
  s->parked = s->joined = s->lacks = false;
  s->detached = detached;
  s->pushes = s->digest = 0;
  s->tid = 0;
  forget_signals(i);
  return i;
}

/* Our calls need more room than libc's: a small stack is made larger while its thread is created. The size it had, or
 * 0. */
static size_t widen(const pthread_attr_t *attr) {
  size_t size = 0, other;
  void *at = NULL;
  if (!attr || pthread_attr_getstacksize(attr, &size) || size >= 1 << 17) return 0;
  if (!pthread_attr_getstack(attr, &at, &other) && (uintptr_t)at + other) return 0; /* the program's own */
  return pthread_attr_setstacksize((pthread_attr_t *)attr, size + (1 << 16)) ? 0 : size;
}

EXPORT int pthread_create(pthread_t *thread, const pthread_attr_t *attr, void *(*begins)(void *), void *given) {
  NEXT(pthread_create);
  OFF(next(thread, attr, begins, given));
  int detached = PTHREAD_CREATE_JOINABLE, code = EAGAIN;
  if (attr) pthread_attr_getdetachstate(attr, &detached);
  turn();
  int i = take_slot(detached == PTHREAD_CREATE_DETACHED);
  start *s = i < 0 ? NULL : detio_heap_malloc(sizeof *s);
  if (s) {
    *s = (start){begins, given, i};
    inside++;
    size_t size = widen(attr);
    code = next(thread, attr, run_thread, s);
    if (size) (void)pthread_attr_setstacksize((pthread_attr_t *)attr, size);
    inside--;
    for (int k = 0; !code && k < SLOTS; k++)
      if (k != i && slots[k].state == DONE && pthread_equal(slots[k].id, *thread)) slots[k].state = FREE;
    if (!code) slots[i].id = *thread;
  }
  if (i < 0)
    uncovered("slots",
              "no number for one more thread: pthread_create fails while %lu live, in a rerun too; see --threads",
              run.threads);
  else if (code) slots[i].state = FREE;
  turn_end();
  return code;
}

static int slot_of(pthread_t thread) {
  for (int i = 0; i < SLOTS; i++)
    if (slots[i].state != FREE && pthread_equal(slots[i].id, thread)) return i;
  return -1;
}

/* A thread that has left the run is joined, and its slot is free. */
static int join(int i, pthread_t thread, void **result) {
  static int (*next)(pthread_t, void **);
  if (!next) next = (int (*)(pthread_t, void **))dlsym(RTLD_NEXT, "pthread_join");
  inside++;
  int code = next(thread, result);
  inside--;
  if (i >= 0 && !code) slots[i].state = FREE;
  return code;
}

EXPORT int pthread_join(pthread_t thread, void **result) {
  NEXT(pthread_join);
  OFF(next(thread, result));
  turn();
  int i = slot_of(thread);
  if (i == me) {
    turn_end();
    return EDEADLK;
  }
  while (i >= 0 && slots[i].state == LIVE && park_lightly(&slots[i], "thread", LIGHT)) {
    turn_end();
    (void)is_interrupted(true);
    turn();
  }
  int code = join(i, thread, result);
  turn_end();
  return code;
}
EXPORT int pthread_tryjoin_np(pthread_t thread, void **result) {
  NEXT(pthread_tryjoin_np);
  OFF(next(thread, result));
  turn();
  int i = slot_of(thread);
  int code = i >= 0 && slots[i].state == LIVE ? EBUSY : join(i, thread, result);
  turn_end();
  return code;
}
EXPORT int pthread_clockjoin_np(pthread_t thread, void **result, clockid_t clock, const struct timespec *until) {
  NEXT(pthread_clockjoin_np);
  OFF(next(thread, result, clock, until));
  turn();
  int i = slot_of(thread);
  if (i >= 0 && slots[i].state == LIVE && until) {
    bool left = wait_until(&slots[i], clock, until);
    turn();
    if (!left && slots[i].state == LIVE) {
      turn_end();
      return ETIMEDOUT;
    }
  } else if (i >= 0 && slots[i].state == LIVE) {
    park(&slots[i], "thread");
  }
  int code = join(i, thread, result);
  turn_end();
  return code;
}
EXPORT int pthread_timedjoin_np(pthread_t thread, void **result, const struct timespec *until) {
  return pthread_clockjoin_np(thread, result, CLOCK_REALTIME, until);
}
EXPORT int pthread_detach(pthread_t thread) {
  NEXT(pthread_detach);
  OFF(next(thread));
  turn();
  int i = slot_of(thread);
  if (i >= 0) {
    slots[i].detached = true;
    if (slots[i].state == DONE) slots[i].state = FREE;
  }
  inside++;
  int code = next(thread);
  inside--;
  turn_end();
  return code;
}
/* A thread that is cancelled ends at its next sleep or wait for a condition; from such a wait it wakes for that. */
EXPORT int pthread_cancel(pthread_t thread) {
  NEXT(pthread_cancel);
  OFF(next(thread));
  uncovered("cancel", "pthread_cancel: a thread ends at its next sleep or wait for a condition, and nowhere else");
  turn();
  int i = slot_of(thread);
  inside++;
  int code = next(thread);
  inside--;
  if (i >= 0 && slots[i].parked && slots[i].then) move_on(i);
  turn_end();
  return code;
}
/* .. also where it would end at any instruction: that could be in the midst of our own code. */
EXPORT int pthread_setcanceltype(int type, int *old) {
  static __thread int kept = PTHREAD_CANCEL_DEFERRED;
  NEXT(pthread_setcanceltype);
  OFF(next(type, old));
  if (type != PTHREAD_CANCEL_DEFERRED && type != PTHREAD_CANCEL_ASYNCHRONOUS) return EINVAL;
  if (old) *old = kept;
  kept = type;
  return 0;
}
EXPORT int sched_yield(void) {
  NEXT(sched_yield);
  OFF(next());
  turn();
  turn_end();
  return 0;
}

/* The threads of C11 are those of POSIX. */
typedef struct { thrd_start_t begins; void *given; } c_start;
static void *run_c_thread(void *given) {
  c_start s = *(c_start *)given;
  lock_run();
  detio_heap_free(given);
  unlock_run();
  return (void *)(intptr_t)s.begins(s.given);
}
EXPORT int thrd_create(thrd_t *thread, thrd_start_t begins, void *given) {
  NEXT(thrd_create);
  OFF(next(thread, begins, given));
  lock_run();
  c_start *s = detio_heap_malloc(sizeof *s);
  unlock_run();
  if (!s) return thrd_nomem;
  *s = (c_start){begins, given};
  int code = pthread_create(thread, NULL, run_c_thread, s);
  return code == 0 ? thrd_success : code == EAGAIN ? thrd_nomem : thrd_error;
}
EXPORT int thrd_join(thrd_t thread, int *result) {
  void *value = NULL;
  if (pthread_join(thread, &value)) return thrd_error;
  if (result) *result = (int)(intptr_t)value;
  return thrd_success;
}
EXPORT int thrd_detach(thrd_t thread) { return pthread_detach(thread) ? thrd_error : thrd_success; }
EXPORT void thrd_yield(void) { (void)sched_yield(); }
EXPORT _Noreturn void thrd_exit(int result) { pthread_exit((void *)(intptr_t)result); }
