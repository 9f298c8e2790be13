/* Turns and parking: who goes on, and who waits. All of it is done under the library's one lock. */
#define _GNU_SOURCE
#include "preload.h"

#include <linux/futex.h>
#include <poll.h>
#include <signal.h>
#include <stdio.h>
#include <stdlib.h>
#include <string.h>
#include <sys/eventfd.h>
#include <sys/syscall.h>

detio machine;
slot slots[SLOTS];
__thread int me = -1, inside;
bool on;
int ender = NOBODY;
settings run;

static int lock_word;          /* 0 free, 1 held, 2 held and waited for */
static unsigned to_wake;       /* a bit a slot: who is woken once the lock is free */
static unsigned callers;       /* .. and whose call is asked and not answered */
static uint64_t tickets;

static long futex(int *word, int what, int value) { return KERNEL(SYS_futex, word, what | FUTEX_PRIVATE_FLAG, value); }

void lock_run(void) {
  int seen = 0;
  if (__atomic_compare_exchange_n(&lock_word, &seen, 1, false, __ATOMIC_ACQUIRE, __ATOMIC_RELAXED)) return;
  while (__atomic_exchange_n(&lock_word, 2, __ATOMIC_ACQUIRE) != 0) futex(&lock_word, FUTEX_WAIT, 2);
}

void unlock_run(void) {
  unsigned who = to_wake;
  to_wake = 0;
  if (__atomic_exchange_n(&lock_word, 0, __ATOMIC_RELEASE) == 2) futex(&lock_word, FUTEX_WAKE, 1);
  for (; who; who &= who - 1) futex(&slots[__builtin_ctz(who)].word, FUTEX_WAKE, 1);
}

static void rouse(int i) {
  if (!slots[i].sleeps || slots[i].word) return;
  __atomic_store_n(&slots[i].word, 1, __ATOMIC_RELEASE);
  to_wake |= 1u << i;
}

static int holder(void) {
  bool there = false;
  size_t i = 0;
  return detio_holder(&machine, &there, &i) == DETIO_DONE && there ? (int)i : -1;
}

/* Whether a thread other than these two is in its own code, or on its way there. */
static bool others_run(int i, int j) {
  for (int k = 0; k < (int)run.threads; k++)
    if (k != i && k != j && slots[k].state == LIVE && !slots[k].sleeps) return true;
  return false;
}

_Noreturn static void end_lacking(int i) {
  const slot *s = &slots[i];
  ends(LOG_ENDS, "the log ends here: thread %d, at its call %lu, has no outcome %lu", i, s->calls, s->outcomes + 1);
}
/* Where the thread that has the turn lacks an outcome, and nobody runs, a rerun ends. */
static void end_with_log(int h, int also) {
  if (h >= 0 && slots[h].lacks && !others_run(h, also)) end_lacking(h);
}

static bool call_goes_on(size_t i);
/* Nobody runs but thread i, which is about to sleep: a rerun ends too where who has the turn waits with its call for
 * the record of one that was granted before, and the log does not have that. */
static void end_after_lack(int i) {
  int h = holder(), lacking = -1;
  for (int k = 0; k < (int)run.threads; k++) {
    const slot *s = &slots[k];
    if (s->state != LIVE) continue;
    if (k != i && (!s->sleeps || s->word)) return;
    if (s->lacks) lacking = k;
  }
  if (lacking >= 0 && h >= 0 && slots[h].in_call && !call_goes_on((size_t)h)) end_lacking(lacking);
}

/* The slot's word is 0, and the lock is free: sleeps until another thread rouses it, or for two seconds: whether it was
 * roused. */
static bool sleep_at(slot *s) {
  static const struct timespec two_seconds = {2, 0};
  for (int spun = 0; spun < 64 && !__atomic_load_n(&s->word, __ATOMIC_ACQUIRE); spun++) __builtin_ia32_pause();
  while (!__atomic_load_n(&s->word, __ATOMIC_ACQUIRE))
    if (KERNEL(SYS_futex, &s->word, FUTEX_WAIT | FUTEX_PRIVATE_FLAG, 0, &two_seconds) == -ETIMEDOUT) return false;
  return true;
}

/* A thread has the turn, and has made no call for as long as another waited for it: says so, once. */
static void say_who_computes(int waiter) {
  static int said = -1;
  static uint64_t at;
  int h = holder();
  const slot *s = &slots[h];
  place there;
  if (h < 0 || h == waiter || slots[waiter].parked || s->sleeps || s->parked || (callers >> h & 1)) return;
  if (s->calls != slots[waiter].seen || s->state != LIVE) {
    slots[waiter].seen = s->calls;
    return;
  }
  if (said == h && at == s->calls) return;
  said = h;
  at = s->calls;
  say("thread %d has the turn, and made no call for two seconds, while thread %d waits: its last call, %lu, was at %s",
      h, waiter, s->calls, caller_text(s, &there));
}

/* Sleeps until another thread rouses this one, or a signal comes to it. The lock is held before and after, and free
 * meanwhile. */
void nap(int i) {
  slot *s = &slots[i];
  __atomic_store_n(&s->word, 0, __ATOMIC_SEQ_CST);
  if (__atomic_exchange_n(&s->poked, 0, __ATOMIC_SEQ_CST)) return;
  s->sleeps = true;
  if (run.replays) {
    end_with_log(holder(), i);
    end_after_lack(i);
  }
  inside++;
  unlock_run();
  while (!sleep_at(s) && !__atomic_load_n(&arrived, __ATOMIC_SEQ_CST)) {
    lock_run();
    say_who_computes(i);
    unlock_run();
  }
  lock_run();
  inside--;
  s->sleeps = false;
}

/* Whether the outside has answered a thread that is parked for it, and it comes back at this push. */
static bool comes_back(const slot *s) {
  return s->outside && (run.replays ? s->pushes == s->until : s->ready);
}

/* What a thread waits for, which is parked at it. */
static void say_wait(int i) {
  const slot *s = &slots[i];
  place at, from;
  char what[200];
  bool known = s->waits_for && s->on;
  int owner = known && !strcmp(s->waits_for, "mutex") ? mutex_owner(s->on) : -1;
  if (known && !strncmp(s->waits_for, "what ", 5))
    snprintf(what, sizeof what, "%s", s->waits_for);
  else if (known && !strcmp(s->waits_for, "thread"))
    snprintf(what, sizeof what, "the end of thread %d", (int)((const slot *)s->on - slots));
  else if (owner >= 0)
    snprintf(what, sizeof what, "the mutex of thread %d, %s", owner, place_of(s->on, &at));
  else
    snprintf(what, sizeof what, "the %s at %s", known ? s->waits_for : "end",
             known ? place_of(s->on, &at) : "no place");
  say("thread %d, in its call %lu at %s, waits for %s", i, s->calls, caller_text(s, &from), what);
}

/* Every thread waits for another: lines say which, and for what. The run ends there, or waits as the program would. */
static bool end_deadlocked(void) {
  static bool said;
  if (said) return false;
  said = true;
  for (size_t i = 0; i < run.threads; i++)
    if (slots[i].state == LIVE) say_wait((int)i);
  if (!run.waits_forever) ends(DEADLOCK, "deadlock: every thread waits for another");
  say("deadlock: every thread waits for another, and the run stays so");
  return false;
}

/* Of threads that are parked, while nobody runs: whether the outside will move one of them. A run that nobody moves
 * any more ends here. */
static bool is_moved(void) {
  bool outside = false, lacks = false, any = false;
  int first = -1;
  for (size_t i = 0; i < run.threads; i++) {
    const slot *s = &slots[i];
    if (s->state != LIVE) continue;
    if (first < 0) first = (int)i;
    if (!s->outside) continue;
    any = true;
    if (run.replays ? s->until != NEVER : s->ready) return true;
    outside = outside || !run.replays;
    if (run.replays && !has_outcomes((int)i)) lacks = true, first = (int)i;
  }
  if (outside) return false;
  int i = any ? -1 : taker();
  if (i >= 0 && run.replays && !has_outcomes(i)) lacks = true, first = i;
  if (lacks) ends(LOG_ENDS, "the log ends here: thread %d, at its call %lu, waits for what it does not have", first,
                  slots[first].calls);
  if (i < 0 || (run.replays && !next_signal(i))) return end_deadlocked();
  if (!run.replays && !__atomic_load_n(&arrived, __ATOMIC_SEQ_CST)) return false;
  interrupt(i);
  return true;
}

/* A thread that is parked, or no thread at all, has the turn: it is pushed along, by ever longer steps. How far does
 * not depend on when. */
static void push(int i) {
  slot *s = &slots[i];
  uint64_t step = s->pushes < 8 ? 16u << s->pushes : 4096;
  s->pushes++;
  uint32_t code = detio_work(&machine, (size_t)i, step);
  if (code) ends(OURS, "the machine takes no more work (code %u)", code);
}

/* Attempts locks, and pushes along who is parked, until a thread that goes on by itself has the turn. */
static int give_turn(void) {
  for (;;) {
    uint32_t code = DETIO_DONE;
    while (callers && (code = detio_settle(&machine)) == DETIO_MORE) {
    }
    if (code != DETIO_DONE && code != DETIO_STOPPED && code != DETIO_OVER)
      ends(OURS, "the machine makes no more attempts (code %u)", code);
    int h = holder();
    if (h < 0) return h;
    slot *s = &slots[h];
    if (s->state == LIVE && !s->parked) {
      end_with_log(h, h);
      return h;
    }
    if (s->state == LIVE && comes_back(s)) {
      s->outside = s->parked = false;
      s->on = NULL;
      return h;
    }
    bool somebody = false;
    for (size_t i = 0; i < run.threads && !somebody; i++) somebody = slots[i].state == LIVE && !slots[i].parked;
    if (!somebody && !is_moved()) return -1;
    push(h);
  }
}

static bool call_goes_on(size_t i) {
  uint32_t phase = 0;
  bool may = true;
  if (slots[i].lacks || detio_phase(&machine, i, &phase)) return false;
  if (phase == DETIO_TO_OUTSIDE && !run.overlap) (void)detio_may_go(&machine, i, &may);
  return may && (phase == DETIO_GRANTED || phase == DETIO_TO_OUTSIDE || phase == DETIO_BLOCKED);
}

/* Makes what can be made, and wakes who can go on: who has the turn. */
int settle(void) {
  int h = give_turn();
  if (h >= 0 && h != me && slots[h].wants_turn && !slots[h].parked) rouse(h);
  for (unsigned who = callers; who; who &= who - 1) {
    int i = __builtin_ctz(who);
    if (i != me && slots[i].in_call && call_goes_on((size_t)i)) rouse(i);
  }
  return h;
}

static uint64_t chance(uint64_t *state) {
  uint64_t x = *state += 0x9e3779b97f4a7c15u;
  x = (x ^ (x >> 30)) * 0xbf58476d1ce4e5b9u;
  x = (x ^ (x >> 27)) * 0x94d049bb133111ebu;
  return x ^ (x >> 31);
}

/* The process stops here, until somebody has it go on. */
static void stop_here(void) {
  place there;
  long self = KERNEL(SYS_getpid, 0);
  say("stopped before call %lu of thread %d, at %s: gdb -p %ld, or kill -CONT %ld", slots[me].calls, me,
      caller_text(&slots[me], &there), self, self);
  KERNEL(SYS_kill, self, SIGSTOP);
}

/* Before a call or a lock of a run with a seed, a delay: whether there was one. */
static bool delay(void) {
  slots[me].calls++;
  if (run.stop_thread == me && slots[me].calls == run.stop_call) stop_here();
  if (!run.seed) return false;
  (void)detio_work(&machine, (size_t)me, chance(&slots[me].chance) % 200);
  return true;
}

/* The lock is held: waits until this thread has the turn, and is not parked. */
static void await_turn(void) {
  slot *s = &slots[me];
  s->wants_turn = true;
  while (settle() != me || s->parked) nap(me);
  s->wants_turn = false;
}

/* Of a serial run a thread has the turn while it is in the program's own code, until it works. */
void turn(void) {
  lock_run();
  if (delay() || !run.serial) await_turn();
}

/* The history is long: the line says which threads make most of it. */
static void say_growth(void) {
  int order[SLOTS], count = 0;
  char line[160] = "";
  for (int i = 0; i < (int)run.threads; i++)
    if (slots[i].calls) order[count++] = i;
  for (int i = 1; i < count; i++) /* the busiest first */
    for (int k = i; k > 0 && slots[order[k]].calls > slots[order[k - 1]].calls; k--) {
      int swapped = order[k];
      order[k] = order[k - 1];
      order[k - 1] = swapped;
    }
  for (int i = 0, length = 0; i < count && i < 3; i++)
    length += snprintf(line + length, sizeof line - (size_t)length, "%s%lu of thread %d", i ? ", " : "",
                       slots[order[i]].calls, order[i]);
  say("the run keeps %zu MB of history in memory, and grows; most calls: %s",
      heap_used / 1000000, line);
}

/* Of a serial run nobody is in the program's own code but who has the turn. */
static void return_to_program(void) {
  if (run.serial && !inside) await_turn();
  else (void)settle();
  if (heap_used > heap_limit) {
    heap_limit = SIZE_MAX;
    say_growth();
  }
  unlock_run();
}

void turn_end(void) {
  int kept = errno;
  (void)detio_work(&machine, (size_t)me, 1);
  return_to_program();
  errno = kept;
}

void turn_leave(void) {
  (void)detio_work(&machine, (size_t)me, 1);
  settle();
  unlock_run();
}

void thread_begins(void) {
  lock_run();
  return_to_program();
}

uint64_t next_ticket(void) { return ++tickets; }

/* At the turn: this thread is parked, of the outside too or not. */
static void lie_down(const void *what, const char *word, bool outside) {
  slot *s = &slots[me];
  s->outside = outside;
  s->ready = s->woken = s->interrupted = s->signalled = false;
  s->until = outside && run.replays ? next_pushes(me) : NEVER;
  s->on = what;
  s->waits_for = word;
  s->ticket = next_ticket();
  s->pushes = 0;
  s->parked = s->wants_turn = true;
  (void)detio_work(&machine, (size_t)me, 1);
  if (s->due) interrupt(me);
  settle();
}

void park(const void *what, const char *word) {
  lie_down(what, word, false);
  await_turn();
}
bool park_lightly(const void *what, const char *word, enum light light) {
  slots[me].light = light;
  park(what, word);
  slots[me].light = HEAVY;
  return slots[me].interrupted;
}

bool park_outside(const void *what, void (*ready)(void *), void *given) {
  slot *s = &slots[me];
  if (!run.replays && !s->waker) s->waker = (int)KERNEL(SYS_eventfd2, 0, EFD_CLOEXEC | EFD_NONBLOCK);
  lie_down(what, NULL, true);
  if (!run.replays && s->parked) {
    __atomic_store_n(&s->at_host, true, __ATOMIC_SEQ_CST);
    unlock_run();
    inside++; /* as in nap */
    ready(given);
    inside--;
    lock_run();
    s->at_host = false;
    s->ready = true;
  }
  await_turn();
  s->light = HEAVY;
  return s->woken;
}

/* The time from now until then. */
static struct timespec time_left(const struct timespec *until) {
  struct timespec now;
  KERNEL(SYS_clock_gettime, CLOCK_MONOTONIC, &now);
  int64_t left = (until->tv_sec - now.tv_sec) * (int64_t)1000000000 + until->tv_nsec - now.tv_nsec;
  return left > 0 ? (struct timespec){left / 1000000000, left % 1000000000} : (struct timespec){0, 0};
}
bool wait_at_host(struct pollfd *doors, size_t count, const struct timespec *until) {
  slot *s = &slots[me];
  for (;;) {
    uint64_t woken;
    if (s->waker > 0) KERNEL(SYS_read, s->waker, &woken, sizeof woken); /* of a wait before */
    s->signalled = s->light && __atomic_load_n(&arrived, __ATOMIC_SEQ_CST);
    bool over = s->signalled || !__atomic_load_n(&s->parked, __ATOMIC_SEQ_CST);
    struct timespec left = over ? (struct timespec){0, 0} : until ? time_left(until) : (struct timespec){0, 0};
    doors[count] = (struct pollfd){s->waker > 0 ? s->waker : -1, POLLIN, 0};
    long n = KERNEL(SYS_ppoll, doors, count + 1, over || until ? &left : NULL, NULL, 0);
    bool ready = n > (doors[count].revents != 0);
    if (over || n == 0 || ready) return ready;
  }
}

void unpark(int i) {
  slots[i].parked = slots[i].outside = false;
  slots[i].woken = true;
  slots[i].on = NULL;
  if (slots[i].at_host && slots[i].waker > 0) KERNEL(SYS_write, slots[i].waker, &(uint64_t){1}, sizeof(uint64_t));
}

/* The thread that was parked first at this, or -1. */
int first_waiter(const void *what) {
  int found = -1;
  for (size_t i = 0; i < run.threads; i++)
    if (slots[i].parked && slots[i].on == what && (found < 0 || slots[i].ticket < slots[found].ticket)) found = (int)i;
  return found;
}

/* The free slot whose clock is the least, so that its thread begins soon, or -1. */
int free_slot(void) {
  int found = -1;
  uint64_t least = 0, clock = 0;
  for (size_t i = 0; i < run.threads; i++) {
    if (slots[i].state != FREE || detio_clock(&machine, i, &clock)) continue;
    if (found < 0 || clock < least) found = (int)i, least = clock;
  }
  return found;
}

int others_alive(void) {
  int count = 0;
  for (size_t i = 0; i < run.threads; i++) count += (int)i != me && slots[i].state == LIVE;
  return count;
}

/* The call of this thread goes on, until its reply. */
static uint32_t go_on(detio_reply *reply, uint8_t *data, size_t room) {
  slot *s = &slots[me];
  for (;;) {
    uint32_t phase = 0;
    bool may = true;
    settle();
    uint32_t code = detio_phase(&machine, (size_t)me, &phase);
    if (code) return code;
    if (phase == DETIO_GRANTED || phase == DETIO_RECORDED) {
      code = detio_answer(&machine, (size_t)me, reply, data, room);
      if (code == DETIO_AGAIN) continue;
      return code;
    }
    if (phase == DETIO_TO_OUTSIDE && !run.overlap) (void)detio_may_go(&machine, (size_t)me, &may);
    if (phase == DETIO_BLOCKED) {
      code = detio_again(&machine, (size_t)me);
    } else if (phase == DETIO_TO_OUTSIDE && may) {
      code = go_outside();
    } else {
      s->in_call = true;
      nap(me);
      s->in_call = false;
    }
    if (code) return code;
  }
}

/* Makes a call of this thread, and returns once it has its reply. */
uint32_t make_call(const detio_call *call, const void *text, size_t length, const void *second, size_t second_length,
                   detio_reply *reply, void *data, size_t room) {
  static const uint8_t nothing[1];
  uint8_t none[1];
  int kept = errno;
  inside++;
  lock_run();
  delay();
  uint32_t code = detio_ask(&machine, (size_t)me, call, text ? text : nothing, length, second ? second : nothing,
                            second_length);
  callers |= 1u << me;
  if (!code) code = go_on(reply, data ? data : none, data ? room : 0);
  callers &= ~(1u << me);
  inside--;
  return_to_program();
  if (code && code != DETIO_NOT_A_CALL)
    ends(code == DETIO_LOG_FULL || code == DETIO_NO_MEMORY ? OURS : DIVERGED,
         "thread %d, in its call %lu: the machine refuses it (code %u)", me, slots[me].calls, code);
  errno = kept;
  return code;
}

/* The first thread is there, and nobody else. */
void begin_turns(void) {
  for (size_t i = 0; i < run.threads; i++) slots[i].chance = run.seed * 1000 + i;
  slots[0].state = LIVE;
  slots[0].id = pthread_self();
  slots[0].at_kernel = (pid_t)KERNEL(SYS_gettid, 0);
  me = 0;
}

/* A thread that does not go on, while another ends the process. */
_Noreturn void stay(void) {
  static int never;
  for (;;) futex(&never, FUTEX_WAIT, 0);
}

/* The process ends by this thread: no other gets a turn any more. */
void finish_run(void) {
  detio_run_end ended = {0};
  uint64_t unused = 0, left = 0;
  size_t first = 0;
  if (!on || inside) return;
  if (me >= 0) {
    if (slots[me].digest) (void)asks(ASK_CLOSED, 0, NULL, 0, NULL, 0);
    turn();
  } else if (others_alive()) {
    return;
  }
  on = false;
  ender = me;
  inside++;
  bool all = true;
  for (size_t i = 0; i < run.threads; i++) all = !detio_end(&machine, i) && all;
  if (run.replays) {
    for (size_t i = run.threads; i-- > 0;)
      if (!detio_unused(&machine, i, &left) && left) unused += left, first = i;
    if (unused)
      ends(DIVERGED,
           "the rerun diverges: it ended with %lu outcomes of its log unused, the first of thread %zu after its"
           " call %lu",
           unused, first, slots[first].calls);
  }
  if (all) (void)detio_finish(&machine, &ended);
  if (!run.replays) write_log();
}
