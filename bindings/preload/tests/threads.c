/* Threads: how they begin, end and are joined, and what runs at their ends. */
#define _GNU_SOURCE
#include "said.h"

#include <pthread.h>
#include <sched.h>
#include <stdlib.h>
#include <threads.h>
#include <time.h>
#include <unistd.h>

static pthread_key_t key, other;
static tss_t c_key;
static pthread_mutex_t m = PTHREAD_MUTEX_INITIALIZER;
static int destroyed, again;

static void destroys(void *given) {
  pthread_mutex_lock(&m);
  destroyed += (int)(long)given;
  pthread_mutex_unlock(&m);
}
static void comes_again(void *given) {
  again++;
  if (again < 3) pthread_setspecific(other, given);
}
static void *with_keys(void *given) {
  pthread_setspecific(key, given);
  pthread_setspecific(other, given);
  tss_set(c_key, given);
  if ((long)given == 2) pthread_exit((void *)77);
  return given;
}
static void *slow(void *given) {
  pthread_mutex_lock(&m);
  pthread_mutex_unlock(&m);
  return given;
}
static void *many(void *given) {
  sched_yield();
  pthread_mutex_lock(&m);
  ++*(int *)given;
  pthread_mutex_unlock(&m);
  return NULL;
}
static int c_thread(void *given) { return *(int *)given + 1; }
static void *detached(void *given) {
  pthread_mutex_lock(&m);
  *(int *)given = 9;
  pthread_mutex_unlock(&m);
  return NULL;
}

static void *sleeps_on(void *given) {
  for (;;) usleep(1000);
  return given;
}
static void *ends_last(void *given) {
  usleep(2000);
  SAY(given == NULL);
  return NULL;
}

/* Threads that may be cancelled at any instruction, while they wait: their destructors run all the same. */
static pthread_cond_t never = PTHREAD_COND_INITIALIZER;
static pthread_key_t last;
static void counts(void *given) {
  pthread_mutex_lock(&m);
  ++*(int *)given;
  pthread_mutex_unlock(&m);
}
static void unlocks(void *given) { pthread_mutex_unlock(given); }
static void *waits_on(void *given) {
  int old = -1;
  pthread_setspecific(last, given);
  pthread_setcanceltype(PTHREAD_CANCEL_ASYNCHRONOUS, &old);
  pthread_mutex_lock(&m);
  pthread_cleanup_push(unlocks, &m);
  ++*(int *)given;
  for (;;) pthread_cond_wait(&never, &m);
  pthread_cleanup_pop(1);
  return given;
}
static void cancels_at_once(void) {
  pthread_t all[3];
  void *results[3];
  int began = 0, old;
  SAY(pthread_setcanceltype(99, &old) == EINVAL);
  SAY(pthread_setcanceltype(PTHREAD_CANCEL_ASYNCHRONOUS, &old));
  SAY(old == PTHREAD_CANCEL_DEFERRED);
  SAY(pthread_setcanceltype(PTHREAD_CANCEL_DEFERRED, &old));
  SAY(old == PTHREAD_CANCEL_ASYNCHRONOUS);
  pthread_key_create(&last, counts);
  for (int i = 0; i < 3; i++) pthread_create(&all[i], NULL, waits_on, &began);
  for (int now = 0; now < 3; usleep(100)) {
    pthread_mutex_lock(&m);
    now = began;
    pthread_mutex_unlock(&m);
  }
  for (int i = 0; i < 3; i++) {
    TELL(pthread_cancel(all[i]));
    TELL(pthread_join(all[i], &results[i]));
    SAY(results[i] == PTHREAD_CANCELED);
  }
  SAY(began);
  pthread_key_delete(last);
}

int main(void) {
  pthread_t t;
  pthread_attr_t attr;
  thrd_t c;
  void *result;
  int count = 0, value = 41;
  struct timespec soon;
  TELL(pthread_key_create(&key, destroys));
  TELL(pthread_key_create(&other, comes_again));
  SAY(tss_create(&c_key, destroys));
  for (long i = 1; i < 4; i++) {
    TELL(pthread_create(&t, NULL, with_keys, (void *)i));
    TELL(pthread_join(t, &result));
    SAY((long)result);
  }
  SAY(destroyed);
  SAY(again);
  TELL(pthread_key_delete(other));
  tss_delete(c_key);
  for (int i = 0; i < 60; i++) {
    pthread_create(&t, NULL, many, &count);
    pthread_join(t, NULL);
  }
  SAY(count);
  pthread_mutex_lock(&m);
  TELL(pthread_create(&t, NULL, slow, (void *)5));
  TELL(pthread_tryjoin_np(t, &result));
  clock_gettime(CLOCK_REALTIME, &soon);
  TELL(pthread_timedjoin_np(t, &result, &soon));
  pthread_mutex_unlock(&m);
  TELL(pthread_join(t, &result));
  SAY((long)result);
  TELL(pthread_join(pthread_self(), NULL));
  pthread_attr_init(&attr);
  pthread_attr_setdetachstate(&attr, PTHREAD_CREATE_DETACHED);
  int seen = 0;
  TELL(pthread_create(&t, &attr, detached, &seen));
  while (seen != 9) {
    pthread_mutex_lock(&m);
    int now = seen;
    pthread_mutex_unlock(&m);
    if (now == 9) break;
    usleep(100);
  }
  TELL(pthread_create(&t, NULL, many, &count));
  TELL(pthread_detach(t));
  SAY(thrd_create(&c, c_thread, &value));
  SAY(thrd_join(c, &value));
  SAY(value);
  thrd_yield();
  cancels_at_once();
  pthread_create(&t, NULL, sleeps_on, NULL);
  usleep(2000);
  TELL(pthread_cancel(t));
  TELL(pthread_join(t, &result));
  SAY(result == PTHREAD_CANCELED);
  pthread_create(&t, NULL, ends_last, NULL);
  pthread_exit(NULL);
}
