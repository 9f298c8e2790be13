// kernel KIND THREADS TRIPS: makes the calls of bench/costs on the kernel, each thread on its own file in /dev/shm,
// and prints the nanoseconds of processor time that a call takes: the least of ROUNDS rounds.
#define _GNU_SOURCE
#include <fcntl.h>
#include <limits.h>
#include <pthread.h>
#include <stdio.h>
#include <stdlib.h>
#include <string.h>
#include <time.h>
#include <sys/socket.h>
#include <sys/stat.h>
#include <unistd.h>

enum { ROUNDS = 30, MOST_THREADS = 16, MOST_TRIPS = 10000 };

enum { OPEN, READ, WRITE, LSEEK, PREAD, PWRITE, FSTAT, GETFL, DUP, LINK, RENAME, MKDIR, PIPE, PAIR, KINDS };
static const char *const words_of[KINDS] = {
    [OPEN] = "open, close", [READ] = "read",         [WRITE] = "write",       [LSEEK] = "lseek",
    [PREAD] = "pread",      [PWRITE] = "pwrite",     [FSTAT] = "fstat",       [GETFL] = "getfl",
    [DUP] = "dup, close",   [LINK] = "link, unlink", [RENAME] = "rename",     [MKDIR] = "mkdir, rmdir",
    [PIPE] = "write, read of a pipe", [PAIR] = "write, read of a pair",
};

static int kind;
static int threads, trips;
static long spent[ROUNDS][MOST_THREADS];
static pthread_barrier_t start;

static long now(void) {
  struct timespec t;
  clock_gettime(CLOCK_THREAD_CPUTIME_ID, &t);
  return t.tv_sec * 1000000000L + t.tv_nsec;
}

static void must(int good) {
  if (!good) {
    perror("kernel");
    exit(1);
  }
}

// `other` names nothing, and lies beside the file; `ends` are those of a pipe or a pair.
static void two_calls(int fd, const char *path, const char *other, const int *ends) {
  char bytes[8] = {0};
  struct stat found;
  switch (kind) {
  case OPEN: fd = open(path, O_RDWR), must(fd >= 0 && close(fd) == 0); break;
  case READ: must(read(fd, bytes, 8) == 8 && read(fd, bytes, 8) == 8); break;
  case WRITE: must(write(fd, bytes, 8) == 8 && write(fd, bytes, 8) == 8); break;
  case LSEEK: must(lseek(fd, 8, SEEK_SET) == 8 && lseek(fd, 8, SEEK_SET) == 8); break;
  case PREAD: must(pread(fd, bytes, 8, 0) == 8 && pread(fd, bytes, 8, 0) == 8); break;
  case PWRITE: must(pwrite(fd, bytes, 8, 0) == 8 && pwrite(fd, bytes, 8, 0) == 8); break;
  case FSTAT: must(fstat(fd, &found) == 0 && fstat(fd, &found) == 0); break;
  case GETFL: must(fcntl(fd, F_GETFL) >= 0 && fcntl(fd, F_GETFL) >= 0); break;
  case DUP: fd = dup(fd), must(fd >= 0 && close(fd) == 0); break;
  case LINK: must(link(path, other) == 0 && unlink(other) == 0); break;
  case RENAME: must(rename(path, other) == 0 && rename(other, path) == 0); break;
  case MKDIR: must(mkdir(other, 0700) == 0 && rmdir(other) == 0); break;
  case PIPE:
  case PAIR: must(write(ends[1], bytes, 8) == 8 && read(ends[0], bytes, 8) == 8); break;
  }
}

static void *thread(void *number) {
  long i = (long)number;
  char path[64], other[64];
  snprintf(path, sizeof path, "/dev/shm/detio-bench-%d-%ld", (int)getpid(), i);
  snprintf(other, sizeof other, "/dev/shm/detio-bench-%d-%ld-other", (int)getpid(), i);
  int ends[2];
  must((kind == PAIR ? socketpair(AF_UNIX, SOCK_STREAM, 0, ends) : pipe(ends)) == 0);
  int fd = open(path, O_RDWR | O_CREAT | O_EXCL, 0600);
  must(fd >= 0);
  char *bytes = calloc(16, trips);
  must(bytes && write(fd, bytes, 16L * trips) == 16L * trips);
  long reading = LONG_MAX; // what reading the clock takes
  for (int try = 0; try < 100; try++) {
    long before = now(), after = now();
    if (after - before < reading) reading = after - before;
  }
  for (int round = 0; round < ROUNDS; round++) {
    must(lseek(fd, 0, SEEK_SET) == 0);
    pthread_barrier_wait(&start);
    long before = now();
    for (int t = 0; t < trips; t++) two_calls(fd, path, other, ends);
    spent[round][i] = now() - before - reading;
  }
  free(bytes);
  must(close(fd) == 0 && unlink(path) == 0);
  return NULL;
}

int main(int count, char **words) {
  if (count != 4) return 2;
  while (kind < KINDS && strcmp(words[1], words_of[kind]) != 0) kind++;
  threads = atoi(words[2]), trips = atoi(words[3]);
  if (kind == KINDS || threads < 1 || threads > MOST_THREADS || trips < 1 || trips > MOST_TRIPS) return 2;
  pthread_t ids[MOST_THREADS];
  pthread_barrier_init(&start, NULL, threads);
  for (long i = 0; i < threads; i++) must(pthread_create(&ids[i], NULL, thread, (void *)i) == 0);
  for (int i = 0; i < threads; i++) pthread_join(ids[i], NULL);
  double least = -1;
  for (int round = 0; round < ROUNDS; round++) {
    double sum = 0;
    for (int i = 0; i < threads; i++) sum += spent[round][i];
    if (least < 0 || sum < least) least = sum;
  }
  printf("%.0f\n", least / (2.0 * trips * threads));
  return 0;
}
