/* What the program has signals do, and which of them its threads block. The host has a handler of ours in place of the
 * program's; in a rerun only for signals that an instruction has come, so that another one ends it. */
#define _GNU_SOURCE
#include "preload.h"

#include <setjmp.h>
#include <string.h>
#include <sys/syscall.h>

static struct sigaction acts[SIGNALS];
static bool known[SIGNALS];
static bool interrupts[SIGNALS]; /* calls, as siginterrupt says for handlers of `signal` */
static void (*hosts)(int, siginfo_t *, void *);

static bool is_handled(const struct sigaction *act) {
  return act->sa_handler != SIG_DFL && act->sa_handler != SIG_IGN;
}
static int (*libc_sigaction(void))(int, const struct sigaction *, struct sigaction *) {
  NEXT(sigaction);
  return next;
}
struct sigaction handling(int number) { return acts[number]; }
bool is_quiet(int number) {
  bool ignored = number == SIGCHLD || number == SIGURG || number == SIGWINCH || number == SIGCONT;
  return acts[number].sa_handler == SIG_IGN || (acts[number].sa_handler == SIG_DFL && ignored);
}
/* A signal that comes at an instruction, or by the C library itself. */
static bool may_come_in_rerun(int number) {
  return number == SIGSEGV || number == SIGBUS || number == SIGFPE || number == SIGILL || number == SIGTRAP ||
         number == SIGABRT || number == SIGSYS;
}
static int set_at_host(int number, const struct sigaction *to) {
  struct sigaction now = *to;
  if (is_handled(to) || (number == SIGSEGV && counts_trap())) {
    now.sa_sigaction = hosts;
    now.sa_flags = SA_SIGINFO | SA_RESTART | (to->sa_flags & (SA_ONSTACK | SA_NOCLDSTOP | SA_NOCLDWAIT));
    if (run.replays && !may_come_in_rerun(number)) now.sa_handler = SIG_DFL;
  }
  return libc_sigaction()(number, &now, NULL);
}
void set_default(int number) {
  struct sigaction none;
  memset(&none, 0, sizeof none);
  acts[number].sa_handler = SIG_DFL;
  (void)set_at_host(number, &none);
}
void set_host_default(int number) {
  struct sigaction none;
  memset(&none, 0, sizeof none);
  none.sa_handler = SIG_DFL;
  (void)libc_sigaction()(number, &none, NULL);
}
/* What the process began with. */
void begin_handlers(void (*handle)(int, siginfo_t *, void *)) {
  hosts = handle;
  for (int number = 1; number < SIGNALS; number++)
    known[number] = !libc_sigaction()(number, NULL, &acts[number]);
  if (counts_trap()) (void)set_at_host(SIGSEGV, &acts[SIGSEGV]);
}

EXPORT int sigaction(int number, const struct sigaction *to, struct sigaction *old) {
  if (!begun || number <= 0 || number >= SIGNALS || !known[number]) return libc_sigaction()(number, to, old);
  if (!takes_part() && me >= 0 && on) return libc_sigaction()(number, to, old); /* our own */
  if (to && (number == SIGKILL || number == SIGSTOP)) return errno = EINVAL, -1;
  struct sigaction before = acts[number];
  if (to && set_at_host(number, to)) return -1;
  if (to) acts[number] = *to;
  if (old) *old = before;
  return 0;
}

/* Older ways to say the same: the handler before, or SIG_ERR. */
static sighandler_t set_handler(int number, sighandler_t handler, int flags, bool blocks) {
  struct sigaction to, old;
  memset(&to, 0, sizeof to);
  to.sa_handler = handler;
  to.sa_flags = flags;
  if (handler == SIG_ERR || number <= 0 || number >= SIGNALS) return errno = EINVAL, SIG_ERR;
  if (blocks) sigaddset(&to.sa_mask, number);
  return sigaction(number, &to, &old) ? SIG_ERR : old.sa_handler;
}
EXPORT sighandler_t signal(int number, sighandler_t handler) {
  bool stops = number > 0 && number < SIGNALS && interrupts[number];
  return set_handler(number, handler, stops ? 0 : SA_RESTART, true);
}
EXPORT sighandler_t sysv_signal(int number, sighandler_t handler) {
  return set_handler(number, handler, (int)SA_RESETHAND | SA_NODEFER, false);
}
EXPORT int siginterrupt(int number, int stops) {
  struct sigaction act;
  if (sigaction(number, NULL, &act)) return -1;
  interrupts[number] = stops;
  act.sa_flags = stops ? act.sa_flags & ~SA_RESTART : act.sa_flags | SA_RESTART;
  return sigaction(number, &act, NULL);
}
EXPORT sighandler_t sigset(int number, sighandler_t handler) {
  struct sigaction old;
  sigset_t one, before;
  sigemptyset(&one);
  if (sigaddset(&one, number)) return SIG_ERR;
  if (pthread_sigmask(handler == SIG_HOLD ? SIG_BLOCK : SIG_UNBLOCK, &one, &before)) return SIG_ERR;
  if (handler != SIG_HOLD) old.sa_handler = set_handler(number, handler, 0, false);
  else if (sigaction(number, NULL, &old)) return SIG_ERR;
  return sigismember(&before, number) ? SIG_HOLD : old.sa_handler;
}

/* What a thread blocks. */
EXPORT int pthread_sigmask(int how, const sigset_t *set, sigset_t *old) {
  NEXT(pthread_sigmask);
  if (!takes_part()) return next(how, set, old);
  NOTE_CALLER();
  uint64_t before = slots[me].blocked, given = 0;
  if (set && how != SIG_BLOCK && how != SIG_UNBLOCK && how != SIG_SETMASK) return EINVAL;
  if (set) memcpy(&given, set, sizeof given);
  if (old) memset(old, 0, sizeof *old), memcpy(old, &before, sizeof before);
  if (!set) return 0;
  set_blocked(how == SIG_BLOCK ? before | given : how == SIG_UNBLOCK ? before & ~given : given);
  enter(); /* what is unblocked comes before the call returns */
  return 0;
}
EXPORT int sigprocmask(int how, const sigset_t *set, sigset_t *old) {
  int code = pthread_sigmask(how, set, old);
  return code ? (errno = code, -1) : 0;
}
static int change_mask(int how, int number) {
  sigset_t one;
  sigemptyset(&one);
  return sigaddset(&one, number) ? -1 : sigprocmask(how, &one, NULL);
}
EXPORT int sighold(int number) { return change_mask(SIG_BLOCK, number); }
EXPORT int sigrelse(int number) { return change_mask(SIG_UNBLOCK, number); }
EXPORT int sigignore(int number) { return set_handler(number, SIG_IGN, 0, false) == SIG_ERR ? -1 : 0; }
static int change_low(int how, int mask) {
  sigset_t set, old;
  sigemptyset(&set);
  memcpy(&set, &mask, sizeof mask);
  if (sigprocmask(how, &set, &old)) return -1;
  memcpy(&mask, &old, sizeof mask);
  return mask;
}
EXPORT int sigblock(int mask) { return change_low(SIG_BLOCK, mask); }
EXPORT int sigsetmask(int mask) { return change_low(SIG_SETMASK, mask); }
EXPORT int siggetmask(void) { return change_low(SIG_BLOCK, 0); }

/* A jump out of a handler: the mask is again what it was, here too. */
static void note_jump(struct __jmp_buf_tag *to) {
  if (!takes_part() || !to->__mask_was_saved) return;
  memcpy(&slots[me].blocked, &to->__saved_mask, sizeof slots[me].blocked);
  slots[me].due = true;
}
#define JUMPS(name)                                                        \
  EXPORT _Noreturn void name(struct __jmp_buf_tag to[1], int value) {      \
    static void (*next)(struct __jmp_buf_tag[1], int);                     \
    if (!next) next = (void (*)(struct __jmp_buf_tag[1], int))dlsym(RTLD_NEXT, #name); \
    note_jump(to);                                                         \
    next(to, value);                                                       \
    __builtin_unreachable();                                               \
  }
JUMPS(longjmp)
JUMPS(_longjmp)
JUMPS(siglongjmp)
JUMPS(__longjmp_chk)
