/* A thread has the turn and makes no call for five seconds, while another waits. */
#include <pthread.h>
#include <signal.h>
#include <stdio.h>
#include <sys/time.h>
#include <unistd.h>

static pthread_mutex_t lock = PTHREAD_MUTEX_INITIALIZER;
static volatile sig_atomic_t over;
static void ends(int number) { over = number; }
static void *waits(void *given) {
  for (int i = 0; i < 10; i++) {
    pthread_mutex_lock(&lock);
    pthread_mutex_unlock(&lock);
  }
  return given;
}
__attribute__((noinline)) static void computes(void) {
  struct itimerval later = {.it_value = {5, 0}};
  setitimer(ITIMER_REAL, &later, NULL);
  pthread_mutex_lock(&lock);
  while (!over) {
  }
  pthread_mutex_unlock(&lock);
}

int main(void) {
  pthread_t t;
  signal(SIGALRM, ends);
  pthread_create(&t, NULL, waits, NULL);
  computes();
  pthread_join(t, NULL);
  printf("over\n");
  return 0;
}
