/* Locks of files: of two openings of one file, of two threads, and a wait that a handler ends. */
#define _GNU_SOURCE
#include "said.h"

#include <fcntl.h>
#include <pthread.h>
#include <signal.h>
#include <sys/file.h>
#include <time.h>
#include <unistd.h>

static int one, other;
static volatile int handled, by_process;
static void counts(int number) { handled += number; }
/* What nobody reads of it is other bytes each time. */
static struct flock part(int type, long from, long length) {
  struct flock it;
  struct timespec now;
  clock_gettime(CLOCK_MONOTONIC, &now);
  memset(&it, 0, sizeof it);
  it.l_pid = by_process ? (pid_t)now.tv_nsec : 0;
  it.l_type = (short)type;
  it.l_start = from;
  it.l_len = length;
  return it;
}
static int record(int fd, int what, int type, long from, long length) {
  struct flock it = part(type, from, length);
  return fcntl(fd, what, &it);
}
static void *frees(void *given) {
  usleep(20000);
  SAY(record(one, F_OFD_SETLK, F_UNLCK, 0, 10));
  usleep(20000);
  SAY(flock(one, LOCK_UN));
  return given;
}

int main(void) {
  struct flock it = part(F_WRLCK, 5, 5);
  struct sigaction act;
  pthread_t t;
  one = open("input.txt", O_RDWR);
  other = open("input.txt", O_RDWR);
  memset(&act, 0, sizeof act);
  act.sa_handler = counts;
  sigaction(SIGALRM, &act, NULL);
  SAY(record(one, F_OFD_SETLK, F_WRLCK, 0, 10));
  SAY(record(other, F_OFD_SETLK, F_WRLCK, 5, 10));
  SAY(record(other, F_OFD_SETLK, F_RDLCK, 10, 5));
  SAY(fcntl(other, F_OFD_GETLK, &it));
  SAY(it.l_type == F_WRLCK && it.l_start == 0 && it.l_len == 10 && it.l_pid == -1);
  by_process = 1;
  SAY(record(one, F_SETLK, F_RDLCK, 20, 5));
  SAY(record(other, F_SETLK, F_WRLCK, 20, 5));
  SAY(record(one, F_SETLK, 99, 20, 5));
  by_process = 0;
  ualarm(20000, 0);
  SAY(record(other, F_OFD_SETLKW, F_WRLCK, 0, 1));
  SAY(handled == SIGALRM);
  SAY(flock(one, LOCK_EX));
  SAY(flock(other, LOCK_SH | LOCK_NB));
  ualarm(20000, 0);
  SAY(flock(other, LOCK_SH));
  SAY(handled == 2 * SIGALRM);
  pthread_create(&t, NULL, frees, NULL);
  int waited = record(other, F_OFD_SETLKW, F_WRLCK, 0, 1), also = flock(other, LOCK_EX);
  pthread_join(t, NULL);
  SAY(waited + also);
  return 0;
}
