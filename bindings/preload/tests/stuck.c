/* stuck: two threads lock two mutexes, each the other's first one first. stuck all: each of several threads waits for
 * another thing, which never comes. */
#include <pthread.h>
#include <semaphore.h>
#include <stdio.h>
#include <unistd.h>

static pthread_mutex_t one = PTHREAD_MUTEX_INITIALIZER, other = PTHREAD_MUTEX_INITIALIZER;
static pthread_cond_t condition = PTHREAD_COND_INITIALIZER;
static pthread_rwlock_t rwlock = PTHREAD_RWLOCK_INITIALIZER;
static pthread_barrier_t barrier;
static sem_t semaphore;

static void *locks(void *given) {
  pthread_mutex_lock(given ? &one : &other);
  usleep(5000);
  pthread_mutex_lock(given ? &other : &one);
  return NULL;
}

static void *waits_for_condition(void *given) {
  pthread_mutex_lock(&one);
  pthread_cond_wait(&condition, &one);
  return given;
}
static void *waits_for_semaphore(void *given) {
  sem_wait(&semaphore);
  return given;
}
static int empty[2];
static void *waits_for_bytes(void *given) {
  char byte;
  return read(empty[0], &byte, 1) < 0 ? NULL : given;
}
static void *waits_for_barrier(void *given) {
  pthread_barrier_wait(&barrier);
  return given;
}
static void *waits_for_rwlock(void *given) {
  pthread_rwlock_wrlock(&rwlock);
  pthread_rwlock_wrlock(&rwlock);
  return given;
}

int main(int count, char **words) {
  void *(*const all[])(void *) = {waits_for_condition, waits_for_semaphore, waits_for_barrier, waits_for_rwlock,
                                waits_for_bytes};
  pthread_t t[5];
  (void)words;
  int threads = count > 1 ? 5 : 2;
  printf("%d threads\n", threads);
  fflush(stdout);
  sem_init(&semaphore, 0, 0);
  if (pipe(empty)) return 1;
  pthread_barrier_init(&barrier, NULL, 2);
  for (int i = 0; i < threads; i++) pthread_create(&t[i], NULL, count > 1 ? all[i] : locks, i ? &one : NULL);
  for (int i = 0; i < threads; i++) pthread_join(t[i], NULL);
  return 0;
}
