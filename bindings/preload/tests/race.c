/* Three threads count in one variable without a lock; a queue without locks; a flag that is turned in turn. What they
 * have depends on the schedule alone. */
#include <pthread.h>
#include <sched.h>
#include <stdatomic.h>
#include <stdio.h>

enum { ROUNDS = 20000, CELLS = 64 };
static volatile long counter;
static atomic_int head, tail, cells[CELLS];
static atomic_long sum;
static pthread_mutex_t m = PTHREAD_MUTEX_INITIALIZER;

static void *counts(void *given) {
  (void)given;
  for (int i = 0; i < ROUNDS; i++) {
    long seen = counter;
    if (i % 100 == 0) {
      pthread_mutex_lock(&m);
      pthread_mutex_unlock(&m);
    }
    counter = seen + 1;
  }
  return NULL;
}
static void *puts_in(void *given) {
  for (int i = 1; i <= 300; i++) {
    int at = atomic_fetch_add(&tail, 1) % CELLS, empty = 0;
    while (!atomic_compare_exchange_weak(&cells[at], &empty, (int)(long)given * 1000 + i)) empty = 0, sched_yield();
  }
  return NULL;
}
static void *takes_out(void *given) {
  long order = 0;
  (void)given;
  for (int i = 0; i < 600; i++) {
    int at = atomic_fetch_add(&head, 1) % CELLS, found;
    while (!(found = atomic_exchange(&cells[at], 0))) sched_yield();
    order = order * 31 + found;
  }
  atomic_store(&sum, order);
  return NULL;
}

int main(void) {
  pthread_t t[3];
  for (int i = 0; i < 3; i++) pthread_create(&t[i], NULL, counts, NULL);
  for (int i = 0; i < 3; i++) pthread_join(t[i], NULL);
  pthread_create(&t[0], NULL, puts_in, (void *)1);
  pthread_create(&t[1], NULL, puts_in, (void *)2);
  pthread_create(&t[2], NULL, takes_out, NULL);
  for (int i = 0; i < 3; i++) pthread_join(t[i], NULL);
  printf("%ld %ld\n", counter, atomic_load(&sum));
  return 0;
}
