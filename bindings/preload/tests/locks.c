/* Locks of each kind, and their timed forms: who came when. */
#define _GNU_SOURCE
#include "said.h"

#include <linux/futex.h>
#include <pthread.h>
#include <semaphore.h>
#include <sys/syscall.h>
#include <threads.h>
#include <time.h>
#include <unistd.h>

static pthread_mutex_t m = PTHREAD_MUTEX_INITIALIZER;
static pthread_cond_t c = PTHREAD_COND_INITIALIZER;
static pthread_rwlock_t rw = PTHREAD_RWLOCK_INITIALIZER;
static void *writes_once(void *given) {
  pthread_rwlock_wrlock(&rw);
  pthread_rwlock_unlock(&rw);
  return given;
}
static pthread_barrier_t barrier;
static pthread_spinlock_t spin;
static pthread_once_t once = PTHREAD_ONCE_INIT;
static sem_t sem, goes;
static mtx_t mtx;
static cnd_t cnd;
static int word, ready, rounds, holds;

static struct timespec in(clockid_t clock, long millis) {
  struct timespec t;
  clock_gettime(clock, &t);
  t.tv_nsec += millis * 1000000;
  t.tv_sec += t.tv_nsec / 1000000000;
  t.tv_nsec %= 1000000000;
  return t;
}
static void initialises(void) { rounds += 100; }
/* Who ends in the midst of it leaves it to the next. */
static pthread_once_t given_up = PTHREAD_ONCE_INIT;
static int begun;
static void gives_up(void) {
  if (++begun == 1) pthread_exit(NULL);
}
static void *begins_once(void *given) {
  pthread_once(&given_up, gives_up);
  return given;
}
static void once_again(void) {
  pthread_t t;
  void *result = &t;
  pthread_create(&t, NULL, begins_once, &begun);
  pthread_join(t, &result);
  TELL(pthread_once(&given_up, gives_up));
  TELL(pthread_once(&given_up, gives_up));
  SAY(begun + (result == NULL));
}

static void *worker(void *given) {
  pthread_once(&once, initialises);
  pthread_barrier_wait(&barrier);
  for (int i = 0; i < 100; i++) {
    pthread_mutex_lock(&m);
    rounds++;
    pthread_mutex_unlock(&m);
    pthread_spin_lock(&spin);
    rounds++;
    pthread_spin_unlock(&spin);
    if (i % 10 == (long)given) {
      pthread_rwlock_wrlock(&rw);
      holds++;
    } else {
      pthread_rwlock_rdlock(&rw);
    }
    pthread_rwlock_unlock(&rw);
  }
  pthread_mutex_lock(&m);
  while (!ready) pthread_cond_wait(&c, &m);
  pthread_mutex_unlock(&m);
  sem_post(&sem);
  return NULL;
}

/* Holds everything until it is told, and a while longer. */
static void *holder(void *given) {
  (void)given;
  pthread_mutex_lock(&m);
  pthread_rwlock_wrlock(&rw);
  sem_post(&sem);
  sem_wait(&goes);
  usleep(5000);
  pthread_rwlock_unlock(&rw);
  pthread_mutex_unlock(&m);
  mtx_lock(&mtx);
  ready = 2;
  cnd_signal(&cnd);
  mtx_unlock(&mtx);
  __atomic_store_n(&word, 1, __ATOMIC_SEQ_CST);
  syscall(SYS_futex, &word, FUTEX_WAKE, 1, NULL, NULL, 0);
  return NULL;
}

static void alone(void) {
  pthread_mutexattr_t attr;
  pthread_mutex_t checks, again;
  pthread_mutexattr_init(&attr);
  pthread_mutexattr_settype(&attr, PTHREAD_MUTEX_ERRORCHECK);
  pthread_mutex_init(&checks, &attr);
  pthread_mutexattr_settype(&attr, PTHREAD_MUTEX_RECURSIVE);
  pthread_mutex_init(&again, &attr);
  TELL(pthread_mutex_unlock(&checks));
  TELL(pthread_mutex_lock(&checks));
  TELL(pthread_mutex_lock(&checks));
  TELL(pthread_mutex_trylock(&checks));
  TELL(pthread_mutex_unlock(&checks));
  TELL(pthread_mutex_lock(&again));
  TELL(pthread_mutex_trylock(&again));
  TELL(pthread_mutex_unlock(&again));
  TELL(pthread_mutex_unlock(&again));
  TELL(pthread_mutex_unlock(&again));
  TELL(pthread_spin_trylock(&spin));
  TELL(pthread_spin_trylock(&spin));
  TELL(pthread_spin_unlock(&spin));
  SAY(sem_trywait(&sem));
  struct timespec t = in(CLOCK_REALTIME, 2);
  SAY(sem_timedwait(&sem, &t));
  SAY(sem_post(&sem));
  int value = 0;
  SAY(sem_getvalue(&sem, &value));
  SAY(value);
  SAY(sem_wait(&sem));
  TELL(pthread_rwlock_tryrdlock(&rw));
  TELL(pthread_rwlock_tryrdlock(&rw));
  TELL(pthread_rwlock_trywrlock(&rw));
  TELL(pthread_rwlock_unlock(&rw));
  TELL(pthread_rwlock_unlock(&rw));
  pthread_t writer;
  TELL(pthread_rwlock_rdlock(&rw));
  pthread_create(&writer, NULL, writes_once, NULL);
  usleep(2000);
  TELL(pthread_rwlock_rdlock(&rw)); /* while a writer waits */
  TELL(pthread_rwlock_unlock(&rw));
  TELL(pthread_rwlock_unlock(&rw));
  pthread_join(writer, NULL);
  TELL(pthread_rwlock_trywrlock(&rw));
  TELL(pthread_rwlock_unlock(&rw));
  TELL(pthread_mutex_lock(&m));
  t = in(CLOCK_REALTIME, 2);
  TELL(pthread_cond_timedwait(&c, &m, &t));
  t = in(CLOCK_MONOTONIC, 2);
  TELL(pthread_cond_clockwait(&c, &m, CLOCK_MONOTONIC, &t));
  t.tv_nsec = -1;
  TELL(pthread_cond_timedwait(&c, &m, &t));
  TELL(pthread_mutex_unlock(&m));
  SAY(syscall(SYS_futex, &word, FUTEX_WAIT, 7, NULL, NULL, 0));
  SAY(syscall(SYS_futex, &word, FUTEX_WAIT, 0, &(struct timespec){0, 1000000}, NULL, 0));
  SAY(mtx_init(&mtx, mtx_timed));
  SAY(cnd_init(&cnd));
  SAY(mtx_trylock(&mtx));
  SAY(mtx_unlock(&mtx));
}

static void with_holder(void) {
  pthread_t t;
  pthread_create(&t, NULL, holder, NULL);
  sem_wait(&sem);
  struct timespec soon = in(CLOCK_REALTIME, 3), late = in(CLOCK_REALTIME, 5000);
  TELL(pthread_mutex_timedlock(&m, &soon));
  TELL(pthread_rwlock_timedrdlock(&rw, &soon));
  TELL(pthread_rwlock_timedwrlock(&rw, &soon));
  sem_post(&goes);
  TELL(pthread_mutex_timedlock(&m, &late));
  TELL(pthread_mutex_unlock(&m));
  mtx_lock(&mtx);
  while (ready != 2) cnd_wait(&cnd, &mtx);
  mtx_unlock(&mtx);
  while (!__atomic_load_n(&word, __ATOMIC_SEQ_CST)) syscall(SYS_futex, &word, FUTEX_WAIT, 0, NULL, NULL, 0);
  SAY(word);
  pthread_join(t, NULL);
}

int main(void) {
  pthread_t t[4];
  pthread_spin_init(&spin, 0);
  sem_init(&sem, 0, 0);
  sem_init(&goes, 0, 0);
  alone();
  once_again();
  pthread_barrier_init(&barrier, NULL, 4);
  for (long i = 0; i < 4; i++) pthread_create(&t[i], NULL, worker, (void *)i);
  pthread_mutex_lock(&m);
  ready = 1;
  pthread_cond_broadcast(&c);
  pthread_mutex_unlock(&m);
  for (int i = 0; i < 4; i++) sem_wait(&sem);
  for (int i = 0; i < 4; i++) pthread_join(t[i], NULL);
  SAY(holds);
  with_holder();
  return 0;
}
