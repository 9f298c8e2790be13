/* moments [send|outside|default]: a handler that comes at any moment of a loop of calls, and what it does there.
 * Another thread sends the signals, or another process; else a timer has them come. Or one without a handler ends it.
 */
#define _GNU_SOURCE
#include <pthread.h>
#include <signal.h>
#include <stdbool.h>
#include <stdio.h>
#include <string.h>
#include <sys/time.h>
#include <unistd.h>

static volatile unsigned long round_of, came;
static volatile bool over;
static unsigned long sum;
static pthread_mutex_t lock = PTHREAD_MUTEX_INITIALIZER;
static pthread_t first;

static void notes(int number) {
  char line[64];
  sum = sum * 31 + round_of;
  int length = snprintf(line, sizeof line, "%d at %lu: %lu\n", number, round_of, sum);
  came++;
  (void)!write(1, line, (size_t)length);
}
static void *sends(void *given) {
  for (int i = 0; i < 20; i++) {
    usleep(1000);
    pthread_kill(first, SIGALRM);
  }
  pthread_mutex_lock(&lock);
  over = true;
  pthread_mutex_unlock(&lock);
  return given;
}

int main(int count, char **words) {
  pthread_t t;
  bool is_sent = count > 1 && !strcmp(words[1], "send"), is_over = false;
  struct itimerval it = {{0, 3000}, {0, 3000}};
  if (count > 1 && !strcmp(words[1], "default")) return raise(SIGTERM);
  if (count > 1 && !strcmp(words[1], "late")) { /* it had a handler when it was sent, and has none when it is let in */
    sigset_t set;
    sigemptyset(&set);
    sigaddset(&set, SIGTERM);
    signal(SIGTERM, notes);
    pthread_sigmask(SIG_BLOCK, &set, NULL);
    raise(SIGTERM);
    signal(SIGTERM, SIG_DFL);
    pthread_sigmask(SIG_UNBLOCK, &set, NULL);
    return 3;
  }
  first = pthread_self();
  signal(SIGALRM, notes);
  if (is_sent) pthread_create(&t, NULL, sends, NULL);
  if (count == 1) setitimer(ITIMER_REAL, &it, NULL);
  for (round_of = 0; !is_over; round_of++) {
    pthread_mutex_lock(&lock);
    is_over = is_sent ? over : came >= 20;
    pthread_mutex_unlock(&lock);
    getpid();
  }
  if (is_sent) pthread_join(t, NULL);
  printf("%lu\n", sum);
  return 0;
}
