/* What is refused, and what a run has of its own. */
#define _GNU_SOURCE
#include "said.h"

#include <fcntl.h>
#include <pthread.h>
#include <signal.h>
#include <stdlib.h>
#include <sys/fanotify.h>
#include <sys/inotify.h>
#include <sys/mman.h>
#include <sys/mount.h>
#include <sys/pidfd.h>
#include <sys/signalfd.h>
#include <sys/syscall.h>
#include <sys/sysinfo.h>
#include <time.h>
#include <unistd.h>

static void handles(int number) { (void)number; }
static void *sends(void *given) {
  usleep(20000);
  kill(getpid(), SIGALRM);
  return given;
}
/* The signal comes to the first thread alone. */
static void pauses(void) {
  pthread_t t;
  sigset_t set;
  sigemptyset(&set);
  sigaddset(&set, SIGALRM);
  signal(SIGALRM, handles);
  pthread_sigmask(SIG_BLOCK, &set, NULL);
  pthread_create(&t, NULL, sends, NULL);
  pthread_sigmask(SIG_UNBLOCK, &set, NULL);
  SAY(pause());
  pthread_join(t, NULL);
}

static int not_refused;
static void must(const char *what, int result) {
  said(what, result);
  if (result != -1 || errno != ENOSYS) not_refused++;
}
#define REFUSED(call) must(#call, call)

int main(void) {
  sigset_t set;
  sigemptyset(&set);
  REFUSED(signalfd(-1, &set, 0));
  REFUSED(inotify_init());
  REFUSED(inotify_init1(0));
  REFUSED(fanotify_init(0, 0));
  REFUSED(memfd_create("name", 0));
  REFUSED(shm_open("/detio-none", O_RDONLY, 0));
  REFUSED(shm_unlink("/detio-none"));
  REFUSED(mount("none", "/none", "tmpfs", 0, NULL));
  REFUSED(pidfd_open(getpid(), 0));
  /* numbers of the host are above all of ours */
  long number = syscall(SYS_dup, 1);
  SAY(number >= 512);
  SAY(write((int)number, "", 0));
  SAY(close((int)number));
  SAY(get_phys_pages());
  SAY(get_avphys_pages());
  pauses();
  fflush(stdout);
  quick_exit(not_refused);
}
