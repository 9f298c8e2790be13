/* Signals that the process sends itself, commands, and how it ends. */
#define _GNU_SOURCE
#include "said.h"

#include <pthread.h>
#include <signal.h>
#include <stdlib.h>
#include <unistd.h>

static volatile sig_atomic_t handled;
static void handles(int number) { handled += number; }
static void writes(int number) { SAY(number == SIGALRM); }
static pthread_t waiter;
static int first, second;
static void *waits(void *given) {
  sigset_t *set = given;
  if (sigwait(set, &first)) first = -1;
  second = sigwaitinfo(set, NULL);
  return NULL;
}

static void informed(int number, siginfo_t *about, void *context) {
  SAY(number == SIGUSR2 && about->si_signo == SIGUSR2 && context);
}
sighandler_t __sysv_signal(int, sighandler_t), bsd_signal(int, sighandler_t);
int __sigaction(int, const struct sigaction *, struct sigaction *);
static void handlers(void) {
  struct sigaction act, old;
  memset(&act, 0, sizeof act);
  SAY(signal(SIGUSR1, SIG_IGN) == handles);
  SAY(signal(SIGUSR1, handles) == SIG_IGN);
  SAY(bsd_signal(SIGUSR1, handles) == handles);
  SAY(signal(999, handles) == SIG_ERR ? -1 : 0);
  act.sa_sigaction = informed;
  act.sa_flags = SA_SIGINFO | SA_RESTART;
  SAY(sigaction(SIGUSR2, &act, &old));
  SAY(old.sa_handler == handles && !(old.sa_flags & SA_SIGINFO));
  SAY(raise(SIGUSR2));
  SAY(__sigaction(SIGUSR2, NULL, &old));
  SAY(old.sa_sigaction == informed && old.sa_flags & SA_SIGINFO);
#pragma GCC diagnostic push
#pragma GCC diagnostic ignored "-Wdeprecated-declarations"
  SAY(siginterrupt(SIGUSR2, 1));
  SAY(sigaction(SIGUSR2, NULL, &old) + (old.sa_flags & SA_RESTART ? 1 : 2));
  SAY(sigaction(SIGKILL, &act, NULL));
  SAY((void *)sigset(SIGUSR2, SIG_HOLD) == (void *)informed);
  SAY(sigset(SIGUSR2, handles) == SIG_HOLD);
#pragma GCC diagnostic pop
  handled = 0;
  SAY(sysv_signal(SIGUSR2, handles) == handles);
  SAY(raise(SIGUSR2) + handled);
  SAY(sysv_signal(SIGUSR2, SIG_IGN) == SIG_DFL);
  SAY(__sysv_signal(SIGUSR2, SIG_DFL) == SIG_IGN);
  SAY(ssignal(SIGUSR2, handles) == SIG_DFL);
}

int pause_for_set(int) __asm__("sigpause"), pause_for_one(int) __asm__("__xpg_sigpause"), __sigpause(int, int);
static void others(void) {
  sigset_t set;
  sigemptyset(&set);
  sigaddset(&set, SIGUSR1);
  handled = 0;
  SAY(killpg(getpgrp(), 0));
  SAY(killpg(-1, 0));
  SAY(tgkill(getpid(), gettid(), SIGUSR1));
  SAY(handled == SIGUSR1);
  pthread_sigmask(SIG_BLOCK, &set, NULL);
  SAY(raise(SIGUSR1));
  SAY(pause_for_set(0));
  SAY(raise(SIGUSR1));
  SAY(pause_for_one(SIGUSR1));
  SAY(raise(SIGUSR1));
  SAY(__sigpause(SIGUSR1, 1));
  SAY(pause_for_one(999));
  SAY(handled == 4 * SIGUSR1);
  pthread_sigmask(SIG_UNBLOCK, &set, NULL);
}

int main(void) {
  sigset_t set, none, there;
  sigemptyset(&none);
  sigemptyset(&set);
  sigaddset(&set, SIGUSR1);
  sigaddset(&set, SIGUSR2);
  pthread_sigmask(SIG_BLOCK, &set, NULL);
  pthread_create(&waiter, NULL, waits, &set);
  SAY(kill(getpid(), SIGUSR1));
  usleep(20000);
  SAY(kill(getpid(), SIGUSR2));
  pthread_join(waiter, NULL);
  SAY(first == SIGUSR1);
  SAY(second == SIGUSR2);
  SAY(sigtimedwait(&set, NULL, &(struct timespec){0, 1000000}));
  signal(SIGUSR1, handles);
  SAY(kill(getpid(), SIGUSR1));
  SAY(sigpending(&there));
  SAY(sigismember(&there, SIGUSR1));
  SAY(sigsuspend(&none));
  SAY(handled == SIGUSR1);
  signal(SIGUSR2, handles);
  SAY(kill(getpid(), SIGUSR2));
  pthread_sigmask(SIG_UNBLOCK, &set, NULL);
  SAY(handled == SIGUSR1 + SIGUSR2);
  SAY(sigqueue(getpid(), SIGUSR1, (union sigval){.sival_int = 5}));
  SAY(handled == 2 * SIGUSR1 + SIGUSR2);
  SAY(sigqueue(getpid(), 999, (union sigval){.sival_int = 5}));
  handled -= SIGUSR1;
  SAY(raise(SIGUSR1));
  SAY(handled == 2 * SIGUSR1 + SIGUSR2);
  signal(SIGALRM, writes);
  ualarm(20000, 0);
  SAY(pause());
  others();
  handlers();
  SAY(kill(1 << 22, 0));
  SAY(system("exit 3") >> 8);
  fflush(stdout);
  _exit(7);
}
