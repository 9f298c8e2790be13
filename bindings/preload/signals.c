/* Signals: those that threads send one another are kept here, and their handlers run at calls, by the thread that has
 * the turn. One from outside is noted when it comes, by a handler of ours, and is an outcome of the thread that makes
 * the next call; from there on it is as one that was sent. */
#define _GNU_SOURCE
#include "preload.h"

#include <string.h>
#include <sys/syscall.h>
#include <ucontext.h>

/* Those for the process, while every thread blocks them; and those of each thread. */
typedef struct { uint64_t set; siginfo_t about[SIGNALS]; } signals;
static signals of_process, of_thread[SLOTS];

uint64_t arrived;
static siginfo_t arrivals[SIGNALS];
bool timer_is_set;

/* Whether the instruction that runs has this signal come, or the C library itself, as abort does: its handler runs at
 * once, in a rerun too. */
static bool comes_by_itself(const siginfo_t *about) {
  if (about->si_code == SI_TKILL) return about->si_pid == KERNEL(SYS_getpid, 0);
  bool kind = about->si_signo == SIGSEGV || about->si_signo == SIGBUS || about->si_signo == SIGFPE ||
              about->si_signo == SIGILL || about->si_signo == SIGTRAP || about->si_signo == SIGSYS;
  return kind && about->si_code > 0;
}
static void call_handler(const struct sigaction *act, int number, siginfo_t *about, void *context) {
  if (act->sa_flags & SA_SIGINFO) act->sa_sigaction(number, about, context);
  else act->sa_handler(number);
}
/* A signal came while its thread was in the program's own code. Where it has made no call two seconds later, it may
 * wait for the handler, which then runs as it would without us. */
static struct { bool set; int timer; uint64_t entries; } later;
static void look_later(int number) {
  struct sigevent then;
  static const struct itimerspec two_seconds = {{0, 0}, {2, 0}};
  if (me < 0 || inside || later.set) return;
  memset(&then, 0, sizeof then);
  then.sigev_notify = SIGEV_THREAD_ID;
  then.sigev_signo = number;
  then.sigev_value.sival_ptr = &later;
  then._sigev_un._tid = (pid_t)KERNEL(SYS_gettid, 0);
  later.entries = slots[me].entries;
  later.set = !KERNEL(SYS_timer_create, CLOCK_MONOTONIC, &then, &later.timer) &&
              !KERNEL(SYS_timer_settime, later.timer, 0, &two_seconds, NULL);
}
static bool is_later(const siginfo_t *about) {
  return about->si_code == SI_TIMER && about->si_value.sival_ptr == &later;
}
static void handle_late(int number, siginfo_t *about, void *context) {
  struct sigaction act = handling(number);
  const void *at = (const void *)((const ucontext_t *)context)->uc_mcontext.gregs[REG_RIP];
  KERNEL(SYS_timer_delete, later.timer);
  later.set = false;
  if (me < 0 || inside || slots[me].entries != later.entries || is_in(&own_code, at)) return;
  if (!(__atomic_fetch_and(&arrived, ~BIT(number), __ATOMIC_SEQ_CST) & BIT(number))) return;
  uncovered_at(at, "handler",
               "the handler of signal %d runs at a moment that is not recorded: a rerun does not repeat it", number);
  *about = arrivals[number];
  if (act.sa_handler != SIG_DFL && act.sa_handler != SIG_IGN) call_handler(&act, number, about, context);
}
/* The host's handler of all signals that the program handles. */
static void handle(int number, siginfo_t *about, void *context) {
  int kept = errno;
  struct sigaction act = handling(number);
  bool counts = answer_count(about, context);
  errno = kept;
  if (counts) return;
  if (!on || comes_by_itself(about)) {
    if (act.sa_handler != SIG_DFL && act.sa_handler != SIG_IGN) call_handler(&act, number, about, context);
    else set_host_default(number); /* the instruction has it come once more */
    return;
  }
  if (is_later(about)) {
    handle_late(number, about, context);
  } else if (!run.replays) {
    uint64_t one = 1;
    arrivals[number] = *about;
    __atomic_or_fetch(&arrived, BIT(number), __ATOMIC_SEQ_CST);
    for (size_t i = 0; i < run.threads; i++)
      if (__atomic_load_n(&slots[i].at_host, __ATOMIC_SEQ_CST) && slots[i].waker > 0)
        KERNEL(SYS_write, slots[i].waker, &one, sizeof one);
    if (me >= 0) {
      __atomic_store_n(&slots[me].poked, 1, __ATOMIC_SEQ_CST);
      __atomic_store_n(&slots[me].word, 1, __ATOMIC_SEQ_CST);
    }
    look_later(number);
  }
  errno = kept;
}

long take_arrived(siginfo_t *to) {
  for (uint64_t all = __atomic_load_n(&arrived, __ATOMIC_SEQ_CST); all; all &= all - 1) {
    int number = __builtin_ctzll(all) + 1;
    *to = arrivals[number];
    if (__atomic_fetch_and(&arrived, ~BIT(number), __ATOMIC_SEQ_CST) & BIT(number)) return number;
  }
  return 0;
}

static void set_due(int i) {
  slot *s = &slots[i];
  uint64_t open = of_process.set & ~s->blocked;
  for (uint64_t all = open; all; all &= all - 1) {
    int number = __builtin_ctzll(all) + 1;
    of_thread[i].about[number] = of_process.about[number];
  }
  of_process.set &= ~open;
  of_thread[i].set |= open;
  s->due = of_thread[i].set & ~s->blocked;
}
uint64_t signals_there(void) { return of_process.set | of_thread[me].set; }

bool take_awaited(uint64_t set, siginfo_t *to) {
  signals *own = of_thread[me].set & set ? &of_thread[me] : &of_process;
  if (!(own->set & set)) return false;
  int number = __builtin_ctzll(own->set & set) + 1;
  own->set &= ~BIT(number);
  *to = own->about[number];
  set_due(me);
  return true;
}

void interrupt(int i) {
  slot *s = &slots[i];
  if (!s->parked || !s->light) return;
  s->interrupted = true;
  s->light = HEAVY;
  move_on(i);
}

int taker(void) {
  for (size_t i = 0; i < run.threads; i++) {
    const slot *s = &slots[i];
    if (s->state != LIVE || !s->light) continue;
    if (timer_is_set) return (int)i;
    for (int number = 1; s->light == LIGHTER && number < SIGNALS; number++) {
      struct sigaction act = handling(number);
      bool handled = act.sa_handler != SIG_DFL && act.sa_handler != SIG_IGN;
      if (handled && !(s->blocked & BIT(number))) return (int)i;
    }
  }
  return -1;
}

/* The thread that a signal for the process is for: one that waits for it, or the first that may run its handler soon;
 * or -1, where all block it. */
static int receiver(uint64_t bit) {
  int found = -1;
  for (int pass = 0; pass < 3 && found < 0; pass++)
    for (int i = 0; i < (int)run.threads && found < 0; i++) {
      const slot *s = &slots[i];
      if (s->state != LIVE) continue;
      bool open = !(s->blocked & bit), soon = !s->parked || s->light;
      if (pass == 0 ? s->awaited & bit : open && (pass == 2 || soon)) found = i;
    }
  return found;
}

/* At the turn: a signal is sent to a thread, or to the process (-1). What it does without a handler, the host does. */
static void send(int number, const siginfo_t *about, int to) {
  uint64_t bit = BIT(number);
  void (*does)(int) = handling(number).sa_handler;
  int i = to < 0 ? receiver(bit) : to;
  bool stays = i < 0 || ((slots[i].blocked | slots[i].awaited) & bit);
  if (!stays && is_quiet(number)) return;
  if (number == SIGKILL || number == SIGSTOP || (!stays && does == SIG_DFL)) {
    if (number != SIGKILL && number != SIGSTOP) set_host_default(number);
    KERNEL(SYS_kill, KERNEL(SYS_getpid, 0), number);
    return;
  }
  signals *of = i < 0 ? &of_process : &of_thread[i];
  if (!(of->set & bit)) of->about[number] = *about;
  of->set |= bit;
  if (i < 0) return;
  set_due(i);
  if (slots[i].due || (slots[i].awaited & bit)) interrupt(i);
}

/* Of a thread: its host does what a signal does without a handler. */
static void do_default(int number) {
  uint64_t bit = BIT(number);
  set_host_default(number);
  KERNEL(SYS_rt_sigprocmask, SIG_UNBLOCK, &bit, NULL, 8);
  KERNEL(SYS_tgkill, KERNEL(SYS_getpid, 0), KERNEL(SYS_gettid, 0), number);
}
void set_blocked(uint64_t set) {
  set &= ~(BIT(SIGKILL) | BIT(SIGSTOP) | 3ull << 31); /* the last two are the C library's own */
  uint64_t at_host = counts_trap() ? set & ~BIT(SIGSEGV) : set;
  KERNEL(SYS_rt_sigprocmask, SIG_SETMASK, &at_host, NULL, 8);
  turn();
  slots[me].blocked = set;
  set_due(me);
  turn_end();
}
static void run_handler(int number, siginfo_t *about, struct sigaction act) {
  slot *s = &slots[me];
  uint64_t kept = s->blocked, more;
  ucontext_t context;
  memset(&context, 0, sizeof context);
  memcpy(&more, &act.sa_mask, sizeof more);
  if (act.sa_handler == SIG_IGN || is_quiet(number)) return;
  if (act.sa_handler == SIG_DFL) {
    do_default(number);
    return;
  }
  if (act.sa_flags & (int)SA_RESETHAND) set_default(number);
  set_blocked(kept | more | (act.sa_flags & SA_NODEFER ? 0 : BIT(number)));
  s->handled++;
  if (!(act.sa_flags & SA_RESTART)) s->cut++;
  call_handler(&act, number, about, &context);
  set_blocked(kept);
}

/* Runs what is there for this thread. */
static void deliver(void) {
  siginfo_t about;
  for (;;) {
    turn();
    uint64_t open = of_thread[me].set & ~slots[me].blocked;
    int number = open ? __builtin_ctzll(open) + 1 : 0;
    if (open) about = of_thread[me].about[number];
    of_thread[me].set &= open ? ~BIT(number) : ~0ull;
    slots[me].due = open & (open - 1);
    turn_end();
    if (!open) return;
    run_handler(number, &about, handling(number));
  }
}

/* A run in parallel has a record of when a thread saw what another sent it. */
void take_signals(void) {
  slot *s = &slots[me];
  int kept = errno;
  uint64_t at = s->entries;
  bool seen = s->due && !run.serial, noted = run.serial;
  while (run.replays ? at == s->comes : seen || __atomic_load_n(&arrived, __ATOMIC_SEQ_CST)) {
    siginfo_t about;
    int number = (int)asks(ASK_SIGNAL, 0, NULL, 0, &about, sizeof about);
    noted = true;
    seen = false;
    if (number <= 0 || number >= SIGNALS) continue;
    turn();
    send(number, &about, -1);
    turn_end();
  }
  if (noted && s->due) deliver();
  errno = kept;
}

bool is_interrupted(bool restarts) {
  slot *s = &slots[me];
  unsigned before = restarts ? s->cut : s->handled;
  enter();
  if ((restarts ? s->cut : s->handled) == before) return false;
  errno = EINTR;
  return true;
}

bool begin_masked(const sigset_t *mask, uint64_t *kept) {
  uint64_t set;
  *kept = slots[me].blocked;
  if (!mask) return true;
  memcpy(&set, mask, sizeof set);
  set_blocked(set);
  if (!is_interrupted(false)) return true;
  set_blocked(*kept);
  errno = EINTR;
  return false;
}
int end_masked(const sigset_t *mask, uint64_t kept, int result) {
  int error = errno;
  if (mask) set_blocked(kept);
  errno = error;
  return result;
}

void forget_signals(int i) {
  of_thread[i].set = 0;
  slots[i].blocked = slots[me].blocked;
  slots[i].awaited = 0;
  slots[i].due = false;
  slots[i].tid = 0;
  slots[i].comes = run.replays ? next_signal(i) : 0;
}

void begin_signals(void) {
  KERNEL(SYS_rt_sigprocmask, SIG_SETMASK, NULL, &slots[0].blocked, 8);
  begin_handlers(handle);
}

/* What a thread sends. A process is known by its number in the recording. */
static int sends(int number, int code, union sigval value, int to) {
  siginfo_t about;
  if (number < 0 || number >= SIGNALS) return EINVAL;
  memset(&about, 0, sizeof about);
  about.si_signo = number;
  about.si_code = code;
  about.si_pid = getpid();
  about.si_value = value;
  if (!number) return 0;
  turn();
  send(number, &about, to);
  turn_end();
  enter(); /* one for this thread comes before the call returns */
  return 0;
}
static int as_call(int code) { return code ? (errno = code, -1) : 0; }
static const union sigval nothing;
EXPORT int kill(pid_t to, int number) {
  NEXT(kill);
  OFF(next(to, number));
  if (to == getpid()) return as_call(sends(number, SI_USER, nothing, -1));
  return (int)ask(&(question){.what = ASK_KILL, .a = to, .b = number}, NULL, NULL);
}
EXPORT int killpg(pid_t group, int number) {
  NEXT(killpg);
  OFF(next(group, number));
  return group < 0 ? (errno = EINVAL, -1) : kill(-group, number);
}
EXPORT int sigqueue(pid_t to, int number, const union sigval value) {
  NEXT(sigqueue);
  OFF(next(to, number, value));
  if (to == getpid()) return as_call(sends(number, SI_QUEUE, value, -1));
  uncovered("sigqueue", "sigqueue to another process is not covered: refused, in a rerun too");
  return errno = ENOSYS, -1;
}
EXPORT int raise(int number) {
  NEXT(raise);
  OFF(next(number));
  return as_call(sends(number, SI_TKILL, nothing, me));
}
/* .. to a thread, which is known by its handle; one that has left is none. */
static int thread_of(pthread_t thread) {
  for (int i = 0; i < SLOTS; i++)
    if (slots[i].state == LIVE && pthread_equal(slots[i].id, thread)) return i;
  return -1;
}
EXPORT int pthread_kill(pthread_t thread, int number) {
  NEXT(pthread_kill);
  OFF(next(thread, number));
  int i = thread_of(thread);
  return i < 0 ? ESRCH : sends(number, SI_TKILL, nothing, i);
}
EXPORT int pthread_sigqueue(pthread_t thread, int number, const union sigval value) {
  NEXT(pthread_sigqueue);
  OFF(next(thread, number, value));
  int i = thread_of(thread);
  return i < 0 ? ESRCH : sends(number, SI_QUEUE, value, i);
}
/* .. or by the number that it was told. */
EXPORT int tgkill(pid_t process, pid_t thread, int number) {
  NEXT(tgkill);
  OFF(next(process, thread, number));
  for (int i = 0; i < SLOTS && process == getpid(); i++)
    if (slots[i].state == LIVE && (slots[i].tid == thread || (i == 0 && thread == process)))
      return as_call(sends(number, SI_TKILL, nothing, i));
  uncovered("tgkill", "tgkill to a thread that never asked for its number is not covered: refused, in a rerun too");
  return errno = ENOSYS, -1;
}
