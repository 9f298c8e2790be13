/* Three threads move money: a file of the host, a pipe, a mutex, a condition, sleeps, chance and the clock. */
#define _GNU_SOURCE
#include <fcntl.h>
#include <pthread.h>
#include <stdio.h>
#include <stdlib.h>
#include <string.h>
#include <sys/random.h>
#include <time.h>
#include <unistd.h>

static pthread_mutex_t m = PTHREAD_MUTEX_INITIALIZER;
static pthread_cond_t c = PTHREAD_COND_INITIALIZER;
static int ends[2], arrived;
static const char *path;

static void *deposits(void *given) {
  char text[32], line[64];
  unsigned amount = 0;
  struct timespec now;
  pthread_mutex_lock(&m);
  arrived++;
  pthread_cond_broadcast(&c);
  while (arrived < 3) pthread_cond_wait(&c, &m);
  pthread_mutex_unlock(&m);
  for (int i = 0; i < 4; i++) {
    if (getrandom(&amount, 1, 0) != 1) return (void *)1;
    usleep(amount * 4);
    int fd = open(path, O_RDWR | O_CREAT, 0600);
    ssize_t n = read(fd, text, sizeof text - 1);
    text[n < 0 ? 0 : n] = 0;
    int length =
        snprintf(text, sizeof text, "%ld\n", atol(text) + (long)amount); /* without a lock: a deposit may be lost */
    if (pwrite(fd, text, (size_t)length, 0) != length) return (void *)2;
    close(fd);
    clock_gettime(CLOCK_REALTIME, &now);
    length = snprintf(line, sizeof line, "%ld put in %u at %ld\n", (long)given, amount, now.tv_nsec / 1000);
    if (write(ends[1], line, (size_t)length) != length) return (void *)3;
  }
  return NULL;
}

int main(int count, char **words) {
  pthread_t t[3];
  char text[4096];
  path = count > 1 ? words[1] : "account.txt";
  if (pipe(ends)) return 1;
  for (long i = 0; i < 3; i++) pthread_create(&t[i], NULL, deposits, (void *)i);
  for (int i = 0; i < 3; i++) pthread_join(t[i], NULL);
  close(ends[1]);
  ssize_t n = read(ends[0], text, sizeof text);
  fwrite(text, 1, (size_t)n, stdout);
  int fd = open(path, O_RDONLY);
  n = read(fd, text, sizeof text);
  printf("%.*s", (int)n, text);
  return 0;
}
