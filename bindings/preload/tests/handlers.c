/* Handlers: of signals that threads send one another, and of those that come from outside at any moment. */
#define _GNU_SOURCE
#include "said.h"

#include <fcntl.h>
#include <poll.h>
#include <pthread.h>
#include <semaphore.h>
#include <setjmp.h>
#include <signal.h>
#include <stdbool.h>
#include <stdlib.h>
#include <sys/epoll.h>
#include <sys/eventfd.h>
#include <sys/select.h>
#include <sys/syscall.h>
#include <sys/time.h>
#include <sys/wait.h>
#include <time.h>
#include <unistd.h>

static volatile int handled, value, runs_in;
static int ends[2];
static __thread int number;
static sem_t there, go;
static pthread_mutex_t lock = PTHREAD_MUTEX_INITIALIZER;
static pthread_cond_t changed = PTHREAD_COND_INITIALIZER;
static volatile bool over;

static void counts(int given) { handled += given, runs_in = number; }
static void writes(int given) { (void)!write(ends[1], &given, 1); }
static void informed(int given, siginfo_t *about, void *context) {
  handled += given;
  value = about->si_value.sival_int + (context == NULL);
}
static void on(int given, void (*handler)(int), int flags) {
  struct sigaction act;
  memset(&act, 0, sizeof act);
  act.sa_handler = handler;
  act.sa_flags = flags;
  sigaction(given, &act, NULL);
}
static sigset_t set_of(int given) {
  sigset_t set;
  sigemptyset(&set);
  sigaddset(&set, given);
  return set;
}

/* What a thread waits in, until a signal that main sends ends the wait. */
static void *in_sleep(void *given) { return SAY(usleep(30000000)), given; }
static void *in_read(void *given) {
  char byte;
  return SAY(read(ends[0], &byte, 1)), given;
}
static void *in_semaphore(void *given) { return SAY(sem_wait(&go)), given; }
static void *in_timed_semaphore(void *given) {
  struct timespec until;
  clock_gettime(CLOCK_REALTIME, &until);
  until.tv_sec += 30;
  return SAY(sem_timedwait(&go, &until)), given;
}
static void *in_poll(void *given) {
  struct pollfd one = {ends[0], POLLIN, 0};
  return SAY(poll(&one, 1, 30000)), given;
}
static void *in_select(void *given) {
  fd_set set;
  FD_ZERO(&set);
  FD_SET(ends[0], &set);
  return SAY(select(ends[0] + 1, &set, NULL, NULL, NULL)), given;
}
static void *in_epoll(void *given) {
  struct epoll_event one = {.events = EPOLLIN};
  int all = epoll_create1(0);
  epoll_ctl(all, EPOLL_CTL_ADD, ends[0], &one);
  SAY(epoll_wait(all, &one, 1, -1));
  return close(all), given;
}
static void *in_eventfd(void *given) {
  uint64_t count;
  int event = eventfd(0, 0);
  SAY(read(event, &count, sizeof count));
  return close(event), given;
}
static void *in_suspend(void *given) {
  sigset_t none;
  sigemptyset(&none);
  return SAY(sigsuspend(&none)), given;
}
static void *begins(void *given) {
  number = 1;
  sem_post(&there);
  ((void *(*)(void *))given)(NULL);
  return NULL;
}
static void interrupts(const char *what, void *(*waits)(void *)) {
  pthread_t t;
  pthread_create(&t, NULL, begins, (void *)waits);
  sem_wait(&there);
  usleep(50000);
  handled = runs_in = 0;
  pthread_kill(t, SIGUSR1);
  pthread_join(t, NULL);
  said(what, handled == SIGUSR1 && runs_in == 1);
  TELL(pthread_kill(pthread_self(), 0));
}
static void waits_that_end(void) {
  on(SIGUSR1, counts, 0);
  interrupts("usleep", in_sleep);
  interrupts("read", in_read);
  interrupts("sem_wait", in_semaphore);
  interrupts("sem_timedwait", in_timed_semaphore);
  interrupts("poll", in_poll);
  interrupts("select", in_select);
  interrupts("epoll_wait", in_epoll);
  interrupts("read of an eventfd", in_eventfd);
  interrupts("sigsuspend", in_suspend);
}

/* With SA_RESTART a read goes on; a wait for a condition and a join do always. */
static long got;
static void *waits_changed(void *given) {
  number = 1;
  char byte = 0;
  sem_post(&there);
  pthread_mutex_lock(&lock);
  while (!over) pthread_cond_wait(&changed, &lock);
  pthread_mutex_unlock(&lock);
  got = read(ends[0], &byte, 1) + byte;
  return given;
}
static void waits_that_go_on(void) {
  pthread_t t;
  on(SIGUSR1, counts, SA_RESTART);
  pthread_create(&t, NULL, waits_changed, NULL);
  sem_wait(&there);
  usleep(20000);
  handled = runs_in = 0;
  pthread_kill(t, SIGUSR1);
  usleep(20000);
  SAY(handled == SIGUSR1 && runs_in == 1);
  pthread_mutex_lock(&lock);
  over = true;
  pthread_cond_signal(&changed);
  pthread_mutex_unlock(&lock);
  usleep(20000);
  pthread_kill(t, SIGUSR1);
  usleep(20000);
  SAY(handled == 2 * SIGUSR1);
  SAY(write(ends[1], "\5", 1));
  pthread_join(t, NULL);
  SAY(got);
}

/* Masks, values, handlers that are over once, and jumps. */
static sigjmp_buf back;
_Noreturn void __longjmp_chk(struct __jmp_buf_tag[1], int);
static int way;
static void jumps(int given) {
  if (way == 0) longjmp(back, given);
  if (way == 1) _longjmp(back, given);
  if (way == 2) __longjmp_chk(back, given);
  siglongjmp(back, given);
}
static void masks(void) {
  sigset_t set = set_of(SIGUSR1), old, is;
  struct sigaction act;
  on(SIGUSR1, counts, 0);
  handled = 0;
  TELL(pthread_sigmask(SIG_BLOCK, &set, &old));
  SAY(raise(SIGUSR1) + handled);
  SAY(sigpending(&is) + sigismember(&is, SIGUSR1));
  SAY(sigprocmask(SIG_SETMASK, &old, NULL));
  SAY(handled == SIGUSR1);
  SAY(sigprocmask(99, &set, NULL));
  memset(&act, 0, sizeof act);
  act.sa_sigaction = informed;
  act.sa_flags = SA_SIGINFO;
  SAY(sigaction(SIGUSR2, &act, NULL));
  SAY(sigqueue(getpid(), SIGUSR2, (union sigval){.sival_int = 41}) + value);
  TELL(pthread_sigqueue(pthread_self(), SIGUSR2, (union sigval){.sival_int = 42}));
  SAY(value);
  on(SIGUSR2, counts, (int)SA_RESETHAND);
  SAY(raise(SIGUSR2));
  SAY(sigaction(SIGUSR2, NULL, &act) + (act.sa_handler == SIG_DFL));
  on(SIGUSR2, jumps, 0);
  for (way = 0; way < 4; way++)
    if (sigsetjmp(back, 1) == 0) SAY(raise(SIGUSR2) - 100);
  SAY(sigprocmask(SIG_BLOCK, NULL, &is) + sigismember(&is, SIGUSR2));
#pragma GCC diagnostic push
#pragma GCC diagnostic ignored "-Wdeprecated-declarations"
  SAY(sighold(SIGUSR1) + raise(SIGUSR1) + (handled != SIGUSR1 + 3 * SIGUSR2));
  SAY(sigrelse(SIGUSR1));
  SAY(handled == 2 * SIGUSR1 + 3 * SIGUSR2);
  SAY(sigignore(SIGUSR1));
  SAY(raise(SIGUSR1));
  SAY(sigblock(1 << (SIGUSR1 - 1)));
  SAY(siggetmask());
  SAY(sigsetmask(0));
#pragma GCC diagnostic pop
  SAY(syscall(SYS_tgkill, getpid(), gettid(), 0));
}

/* Masks for the time of a wait alone. */
static void masked_waits(void) {
  sigset_t none, set = set_of(SIGUSR1), is;
  struct pollfd one = {ends[0], POLLIN, 0};
  struct epoll_event event;
  int all = epoll_create1(0);
  sigemptyset(&none);
  on(SIGUSR1, counts, 0);
  handled = 0;
  sigprocmask(SIG_BLOCK, &set, NULL);
  raise(SIGUSR1);
  SAY(poll(&one, 1, 0));
  SAY(handled);
  SAY(ppoll(&one, 1, NULL, &none));
  raise(SIGUSR1);
  SAY(pselect(0, NULL, NULL, NULL, NULL, &none));
  raise(SIGUSR1);
  SAY(epoll_pwait(all, &event, 1, -1, &none));
  raise(SIGUSR1);
  SAY(epoll_pwait2(all, &event, 1, NULL, &none));
  SAY(handled == 4 * SIGUSR1);
  SAY(ppoll(&one, 1, &(struct timespec){0, 1000}, &none));
  SAY(sigprocmask(SIG_UNBLOCK, &set, &is) + sigismember(&is, SIGUSR1));
  close(all);
}

/* A signal for the process, while a thread waits for it: no handler runs. */
static int taken;
static void *takes(void *given) {
  sigset_t set = set_of(SIGUSR2);
  siginfo_t about;
  sem_post(&there);
  taken = sigwaitinfo(&set, &about);
  value = about.si_value.sival_int;
  return given;
}
static void awaited(void) {
  sigset_t set = set_of(SIGUSR2);
  pthread_t t;
  pthread_sigmask(SIG_BLOCK, &set, NULL);
  SAY(sigtimedwait(&set, NULL, &(struct timespec){0, 2000000}));
  pthread_create(&t, NULL, takes, NULL);
  sem_wait(&there);
  usleep(20000);
  SAY(sigqueue(getpid(), SIGUSR2, (union sigval){.sival_int = 7}));
  pthread_join(t, NULL);
  SAY(taken == SIGUSR2);
  SAY(value);
  pthread_sigmask(SIG_UNBLOCK, &set, NULL);
  set = set_of(SIGALRM); /* .. and one from outside */
  siginfo_t about;
  pthread_sigmask(SIG_BLOCK, &set, NULL);
  SAY(setitimer(ITIMER_REAL, &(struct itimerval){{0, 0}, {0, 20000}}, NULL));
  SAY(sigwaitinfo(&set, &about) == SIGALRM);
  SAY(about.si_signo == SIGALRM && about.si_code == SI_KERNEL);
  pthread_sigmask(SIG_UNBLOCK, &set, NULL);
}

/* From outside: timers, whose handler interrupts a sleep, a read and a loop of calls. */
static void timers(void) {
  struct itimerval it = {{0, 0}, {0, 20000}}, was;
  struct sigevent then;
  struct itimerspec to = {{0, 0}, {0, 20000000}}, is;
  timer_t timer;
  char byte = 0;
  on(SIGALRM, counts, 0);
  handled = 0;
  SAY(setitimer(ITIMER_REAL, &it, NULL));
  SAY(usleep(30000000));
  SAY(handled == SIGALRM);
  struct timespec left = {0, 0};
  SAY(ualarm(20000, 0));
  SAY(nanosleep(&(struct timespec){30, 0}, &left));
  SAY(left.tv_sec);
  SAY(ualarm(20000, 0));
  SAY(sleep(30));
  SAY(ualarm(20000, 0));
  SAY(read(ends[0], &byte, 1));
  SAY(alarm(0));
  SAY(alarm(100));
  SAY(getitimer(ITIMER_REAL, &was) + (was.it_value.tv_sec == 99));
  SAY(alarm(0));
  on(SIGALRM, writes, SA_RESTART);
  SAY(ualarm(20000, 0));
  SAY(read(ends[0], &byte, 1) + byte);
  memset(&then, 0, sizeof then);
  then.sigev_notify = SIGEV_THREAD_ID + 100;
  SAY(timer_create(CLOCK_MONOTONIC, &then, &timer) == -1);
  then.sigev_notify = SIGEV_SIGNAL;
  then.sigev_signo = SIGUSR1;
  then.sigev_value.sival_int = 17;
  struct sigaction act;
  memset(&act, 0, sizeof act);
  act.sa_sigaction = informed;
  act.sa_flags = SA_SIGINFO;
  sigaction(SIGUSR1, &act, NULL);
  handled = 0;
  SAY(timer_create(CLOCK_MONOTONIC, &then, &timer));
  SAY(timer_settime(timer, 0, &to, NULL));
  SAY(timer_gettime(timer, &is) + (is.it_value.tv_nsec > 0));
  SAY(pause());
  SAY(handled == SIGUSR1);
  SAY(value);
  SAY(timer_getoverrun(timer));
  SAY(timer_delete(timer));
  SAY(timer_delete(timer));
}

int main(void) {
  (void)!pipe(ends);
  sem_init(&there, 0, 0);
  sem_init(&go, 0, 0);
  waits_that_end();
  waits_that_go_on();
  masks();
  masked_waits();
  awaited();
  timers();
  return 0;
}
