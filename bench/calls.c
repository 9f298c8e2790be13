/* calls COUNT THREADS WHAT [FOLDER]: makes so many calls in each thread, and prints nanoseconds of one on standard
 * error. WHAT is pread (of a file in FOLDER), read (of data.txt) or write (of a file of the host), time, pipe (a write
 * and a read), mutex (a round) or compute (COUNT rounds of a loop, and no call). */
#define _GNU_SOURCE
#include <fcntl.h>
#include <pthread.h>
#include <stdio.h>
#include <stdlib.h>
#include <string.h>
#include <sys/syscall.h>
#include <time.h>
#include <unistd.h>

static long count;
static const char *what, *folder = ".";
static pthread_mutex_t m = PTHREAD_MUTEX_INITIALIZER;
static long rounds;

/* Calls that the run does not see, so that the measure is not part of it. */
static long unseen(long call, long a, const void *b, long c) {
  long r;
  __asm__ volatile("syscall" : "=a"(r) : "0"(call), "D"(a), "S"(b), "d"(c) : "rcx", "r11", "memory");
  return r;
}
static double now(void) {
  struct timespec t;
  unseen(SYS_clock_gettime, CLOCK_MONOTONIC, &t, 0);
  return (double)t.tv_sec * 1e9 + (double)t.tv_nsec;
}

static int opens(long thread) {
  char path[4096];
  int fd = -1;
  snprintf(path, sizeof path, "%s/f%ld", folder, thread);
  if (!strcmp(what, "pread") || !strcmp(what, "write")) fd = open(path, O_RDWR | O_CREAT, 0600);
  if (!strcmp(what, "pread") && write(fd, "x", 1) != 1) exit(1);
  if (!strcmp(what, "read")) fd = open("data.txt", O_RDONLY);
  return fd;
}

static void *works(void *given) {
  char bytes[64] = {0};
  int fd = opens((long)given), ends[2] = {-1, -1};
  struct timespec t;
  volatile long sum = 0;
  ssize_t n = 0;
  if (!strcmp(what, "pipe") && pipe(ends)) exit(1);
  for (long i = 0; i < count; i++) {
    switch (*what == 'p' ? what[1] : *what) {
    case 'r': n = *what == 'p' ? pread(fd, bytes, 1, 0) : read(fd, bytes, sizeof bytes); break;
    case 'w': n = write(fd, bytes, sizeof bytes); break;
    case 't': clock_gettime(CLOCK_MONOTONIC, &t); break;
    case 'i': n = write(ends[1], bytes, 8) + read(ends[0], bytes, 8); break;
    case 'm': pthread_mutex_lock(&m), rounds++, pthread_mutex_unlock(&m); break;
    default: sum += i; break;
    }
    if (n < 0) exit(2);
  }
  return NULL;
}

int main(int words, char **word) {
  pthread_t t[16];
  if (words < 4) return 2;
  count = atol(word[1]);
  long threads = atol(word[2]);
  what = word[3];
  if (words > 4) folder = word[4];
  double begun = now();
  for (long i = 0; i < threads; i++) pthread_create(&t[i], NULL, works, (void *)i);
  for (long i = 0; i < threads; i++) pthread_join(t[i], NULL);
  char line[32];
  unseen(SYS_write, 2, line, snprintf(line, sizeof line, "%.1f\n", (now() - begun) / (double)(count * threads)));
  return 0;
}
