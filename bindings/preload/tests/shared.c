/* Segments of shared memory, as the kernel has them but for their numbers; and system calls by their numbers. */
#define _GNU_SOURCE
#include "said.h"

#include <fcntl.h>
#include <pthread.h>
#include <sched.h>
#include <stdlib.h>
#include <sys/shm.h>
#include <sys/syscall.h>
#include <unistd.h>

static void *writes(void *given) { return strcpy((char *)given + 5000, "of a thread"); }

static void segments(void) {
  struct shmid_ds about;
  pthread_t thread;
  int id = shmget(IPC_PRIVATE, 10000, IPC_CREAT | 0600), other = shmget(IPC_PRIVATE, 1, 0600);
  SAY(id >= 0 && other >= 0 && id != other);
  SAY(shmget(IPC_PRIVATE, 0, 0600));
  char *at = shmat(id, NULL, 0), *again = shmat(id, NULL, SHM_RDONLY);
  SAY(at != again && at != (char *)-1 && again != (char *)-1);
  SAY(at[0] + at[9999]);
  pthread_create(&thread, NULL, writes, at);
  pthread_join(thread, NULL);
  printf("%s\n", again + 5000);
  SAY(shmctl(id, IPC_STAT, &about) + (long)about.shm_nattch + (long)about.shm_segsz);
  SAY(shmctl(id, IPC_RMID, NULL));
  SAY(shmctl(id, IPC_STAT, &about) + (long)about.shm_nattch);
  SAY(shmdt(again));
  SAY(shmdt(again));
  SAY(shmdt(at + 4096));
  printf("%s\n", at + 5000);
  SAY(shmdt(at));
  SAY(shmat(id, NULL, 0) == (void *)-1 ? -1 : 0);
  SAY(shmctl(id, IPC_STAT, &about));
  SAY(shmctl(id, IPC_RMID, NULL));
  SAY(shmctl(other, IPC_RMID, NULL));
  SAY(shmctl(other, IPC_RMID, NULL));
  SAY(shmdt(NULL));
}

static void by_number(void) {
  char bytes[20] = "";
  cpu_set_t all, mine;
  int fd = (int)syscall(SYS_open, "input.txt", O_RDONLY, 0);
  SAY(fd);
  SAY(syscall(SYS_read, fd, bytes, 6));
  printf("%.6s", bytes);
  SAY(syscall(SYS_openat, AT_FDCWD, "none", O_RDONLY, 0));
  SAY(syscall(SYS_write, fd, "x", 1));
  SAY(syscall(SYS_close, fd));
  memset(&all, 0, sizeof all);
  long length = syscall(SYS_sched_getaffinity, 0, sizeof all, &all);
  SAY(length > 0 && !sched_getaffinity(0, sizeof mine, &mine) && CPU_EQUAL(&all, &mine));
  int id = (int)syscall(SYS_shmget, IPC_PRIVATE, 10, 0600);
  void *at = (void *)syscall(SYS_shmat, id, NULL, 0);
  SAY(at != (void *)-1);
  SAY(syscall(SYS_shmctl, id, IPC_RMID, NULL));
  SAY(syscall(SYS_shmdt, at));
}

int main(void) {
  segments();
  by_number();
  return 0;
}
