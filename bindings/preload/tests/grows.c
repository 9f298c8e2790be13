/* grows COUNT: one thread locks and unlocks a mutex so often, and another ten times. */
#include <pthread.h>
#include <stdio.h>
#include <stdlib.h>

static pthread_mutex_t lock = PTHREAD_MUTEX_INITIALIZER;
static void *locks(void *given) {
  for (long i = *(long *)given; i > 0; i--) {
    pthread_mutex_lock(&lock);
    pthread_mutex_unlock(&lock);
  }
  return NULL;
}

int main(int count, char **words) {
  long often = count > 1 ? atol(words[1]) : 1, ten = 10;
  pthread_t t[2];
  pthread_create(&t[0], NULL, locks, &ten);
  pthread_create(&t[1], NULL, locks, &often);
  for (int i = 0; i < 2; i++) pthread_join(t[i], NULL);
  printf("over\n");
  return 0;
}
