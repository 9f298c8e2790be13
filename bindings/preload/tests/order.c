/* Who comes first goes first; and the waits of the other forms. It ends with how many things were not so. */
#define _GNU_SOURCE
#include <errno.h>
#include <pthread.h>
#include <semaphore.h>
#include <stdio.h>
#include <threads.h>
#include <time.h>
#include <unistd.h>

static pthread_mutex_t m = PTHREAD_MUTEX_INITIALIZER;
static pthread_cond_t c = PTHREAD_COND_INITIALIZER;
static pthread_rwlock_t rw = PTHREAD_RWLOCK_INITIALIZER;
static pthread_key_t key;
static mtx_t mtx;
static cnd_t cnd;
static sem_t sem, goes;
static int came[8], arrived, ends[2], wrong, here;

static void must(const char *what, int holds) {
  if (!holds) wrong++, printf("not so: %s\n", what);
}
#define MUST(what) must(#what, what)

static struct timespec in(clockid_t clock, long millis) {
  struct timespec t;
  clock_gettime(clock, &t);
  t.tv_nsec += millis * 1000000;
  t.tv_sec += t.tv_nsec / 1000000000;
  t.tv_nsec %= 1000000000;
  return t;
}

/* In a run of one thread at a time, who is seen here is parked. */
static void comes(void) { __atomic_add_fetch(&here, 1, __ATOMIC_SEQ_CST); }
static void wait_for(int count) {
  do usleep(1000); while (__atomic_load_n(&here, __ATOMIC_SEQ_CST) != count);
}
static void *arrives(void *given) {
  comes();
  pthread_mutex_lock(&m);
  came[arrived++] = (int)(long)given;
  pthread_mutex_unlock(&m);
  return NULL;
}
static void *waits(void *given) {
  pthread_mutex_lock(&m);
  comes();
  pthread_cond_wait(&c, &m);
  came[arrived++] = (int)(long)given;
  pthread_mutex_unlock(&m);
  return NULL;
}
static void says_last(void *given) {
  usleep(1000);
  if (write(ends[1], given, 4) != 4) wrong++;
}
static void *with_key(void *given) {
  pthread_setspecific(key, given);
  return given;
}

/* Each thread is parked before the next begins. */
static void in_order(void *(*does)(void *)) {
  pthread_t t[4];
  arrived = here = 0;
  if (does == arrives) pthread_mutex_lock(&m);
  for (long i = 0; i < 4; i++) {
    pthread_create(&t[i], NULL, does, (void *)i);
    wait_for((int)i + 1);
  }
  if (does == arrives) pthread_mutex_unlock(&m);
  for (int i = 0; does == waits && i < 4; i++) {
    pthread_mutex_lock(&m);
    pthread_cond_signal(&c);
    pthread_mutex_unlock(&m);
  }
  for (int i = 0; i < 4; i++) pthread_join(t[i], NULL);
  for (int i = 0; i < 4; i++) MUST(came[i] == i);
}

static void at_the_end(void) {
  pthread_t t;
  char text[5] = {0};
  MUST(!pipe(ends));
  pthread_key_create(&key, says_last);
  for (int i = 0; i < 3; i++) {
    pthread_create(&t, NULL, with_key, "last");
    pthread_join(t, NULL);
    MUST(read(ends[0], text, 4) == 4);
  }
  close(ends[1]);
  MUST(read(ends[0], text, 4) == 0);
}

static void *holds(void *given) {
  mtx_lock(&mtx);
  pthread_rwlock_wrlock(&rw);
  sem_post(&sem);
  sem_wait(&goes);
  usleep(5000);
  pthread_rwlock_unlock(&rw);
  mtx_unlock(&mtx);
  return given;
}
static void once_alone(void) { arrived += 10; }
static int ends_by_name(void *given) { thrd_exit(*(int *)given + 1); }
static int c_waits(void *given) {
  mtx_lock(&mtx);
  comes();
  while (*(int *)given == 0) cnd_wait(&cnd, &mtx);
  mtx_unlock(&mtx);
  sem_post(&sem);
  return 0;
}

static void timed(void) {
  pthread_t t;
  pthread_barrier_t barrier;
  pthread_mutex_t held = PTHREAD_MUTEX_INITIALIZER;
  struct timespec soon, late = in(CLOCK_MONOTONIC, 20000);
  pthread_create(&t, NULL, holds, NULL);
  sem_wait(&sem);
  soon = in(CLOCK_REALTIME, 2);
  MUST(mtx_timedlock(&mtx, &soon) == thrd_timedout);
  soon = in(CLOCK_MONOTONIC, 2);
  MUST(pthread_rwlock_clockrdlock(&rw, CLOCK_MONOTONIC, &soon) == ETIMEDOUT);
  MUST(pthread_rwlock_clockwrlock(&rw, CLOCK_MONOTONIC, &soon) == ETIMEDOUT);
  MUST(pthread_clockjoin_np(t, NULL, CLOCK_MONOTONIC, &soon) == ETIMEDOUT);
  MUST(sem_clockwait(&sem, CLOCK_MONOTONIC, &soon) == -1 && errno == ETIMEDOUT);
  pthread_mutex_lock(&held);
  MUST(pthread_mutex_clocklock(&held, CLOCK_MONOTONIC, &soon) == ETIMEDOUT);
  sem_post(&goes);
  MUST(pthread_rwlock_clockwrlock(&rw, CLOCK_MONOTONIC, &late) == 0);
  pthread_rwlock_unlock(&rw);
  MUST(pthread_clockjoin_np(t, NULL, CLOCK_MONOTONIC, &late) == 0);
  mtx_lock(&mtx);
  soon = in(CLOCK_REALTIME, 2);
  MUST(cnd_timedwait(&cnd, &mtx, &soon) == thrd_timedout);
  mtx_unlock(&mtx);
  pthread_barrier_init(&barrier, NULL, 1);
  MUST(pthread_barrier_wait(&barrier) == PTHREAD_BARRIER_SERIAL_THREAD);
  MUST(pthread_barrier_destroy(&barrier) == 0);
}

static void of_c(void) {
  static once_flag flag = ONCE_FLAG_INIT;
  thrd_t t[3];
  int value = 41, gone = 0;
  arrived = here = 0;
  call_once(&flag, once_alone);
  call_once(&flag, once_alone);
  MUST(arrived == 10);
  thrd_create(&t[0], ends_by_name, &value);
  thrd_join(t[0], &value);
  MUST(value == 42);
  for (int i = 0; i < 3; i++) thrd_create(&t[i], c_waits, &gone), MUST(thrd_detach(t[i]) == thrd_success);
  wait_for(3);
  mtx_lock(&mtx);
  gone = 1;
  cnd_broadcast(&cnd);
  mtx_unlock(&mtx);
  for (int i = 0; i < 3; i++) sem_wait(&sem);
}

static void *posts(void *given) {
  sem_post(&sem);
  return given;
}
/* More than live at once, one after another. */
static void detached(void) {
  pthread_t t;
  pthread_attr_t attr;
  static _Alignas(4096) char stacks[20][65536];
  pthread_attr_init(&attr);
  for (int i = 0; i < 20; i++) {
    MUST(!pthread_attr_setstack(&attr, stacks[i], sizeof stacks[i]));
    MUST(!pthread_create(&t, &attr, posts, NULL) && !pthread_join(t, NULL));
    sem_wait(&sem);
  }
  for (int i = 0; i < 40; i++) {
    MUST(!pthread_create(&t, NULL, posts, NULL) && !pthread_detach(t));
    sem_wait(&sem);
    usleep(500);
  }
}

int main(void) {
  sem_init(&sem, 0, 0);
  sem_init(&goes, 0, 0);
  mtx_init(&mtx, mtx_timed);
  cnd_init(&cnd);
  in_order(arrives);
  in_order(waits);
  at_the_end();
  timed();
  of_c();
  detached();
  printf("%d\n", wrong);
  return wrong;
}
