/* quiet HOW: a thread sleeps, reads a line, or computes, for longer than two seconds, while another waits for its
 * mutex. */
#include <pthread.h>
#include <signal.h>
#include <stdio.h>
#include <unistd.h>

static pthread_mutex_t lock = PTHREAD_MUTEX_INITIALIZER;
static volatile sig_atomic_t over;
static void ends(int number) { over = number; }
static void *waits(void *given) {
  pthread_mutex_lock(&lock);
  pthread_mutex_unlock(&lock);
  return given;
}
static void computes(void) {
  signal(SIGALRM, ends);
  alarm(5);
  while (!over) {
  }
}

int main(int count, char **words) {
  pthread_t t;
  char line[100] = "", how = count > 1 ? words[1][0] : 'r';
  pthread_mutex_lock(&lock);
  pthread_create(&t, NULL, waits, NULL);
  usleep(100000);
  if (how == 's') sleep(4);
  if (how == 'c') computes();
  if (how == 'r' && read(0, line, sizeof line) <= 0) return 1;
  pthread_mutex_unlock(&lock);
  pthread_join(t, NULL);
  printf("over\n");
  return 0;
}
