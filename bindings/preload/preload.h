/* What the files of the preload library share.
 *
 * The library stands below a program that is dynamically linked: its functions have the names of libc's and are found
 * first. Each thread of the program is a thread of one machine (detio.h). A call on a descriptor below NATIVE is a call
 * of the machine; all else that comes from outside is a read of one door, the oracle, whose bytes answer a question;
 * and what threads do to one another (locks, conditions, joins) is done to plain variables by the thread that has the
 * turn.
 *
 * Words: a thread is *inside* while the library's own code calls libc; *at the turn* while it has the turn and the
 * library's lock; *parked* while it waits for another thread or for the outside, and then it is pushed along after the
 * turn; *serial* is a run in which only the thread that has the turn is in the program's own code. */
#ifndef DETIO_PRELOAD_H
#define DETIO_PRELOAD_H

/* Headers say `nonnull` of some arguments, and then a compiler leaves out our tests for NULL. */
#define __nonnull(parameters)

#include "detio.h"

#include <dlfcn.h>
#include <errno.h>
#include <pthread.h>
#include <signal.h>
#include <stdarg.h>
#include <stdbool.h>
#include <stddef.h>
#include <stdint.h>
#include <sys/types.h>
#include <time.h>

struct pollfd;
#define EXPORT __attribute__((visibility("default")))
/* It takes more arguments than it may have been given, as the C library's does. */
#define TAKES_ALL __attribute__((no_sanitize_address))

enum {
  SLOTS = 16,     /* threads that live at once, at the most */
  NUMBERS = 32,   /* descriptors of the machine */
  ORACLE = 31,    /* the oracle's */
  NATIVE = 512,   /* the host's own numbers begin here */
  ROOM = 32768,   /* for the bytes of one outcome */
  PIECE = 32000,  /* bytes of one answer of the oracle, without its head */
  MOST = 32767    /* bytes of one read or write */
};

/* The statuses with which Detio ends a run. */
enum { DIVERGED = 120, DEADLOCK = 121, STRICT = 122, LOG_ENDS = 123, DIFFERS = 124, OURS = 125 };

/* What is asked of the outside. Those after LAST_SURE can fail, so --fault may take them. */
enum ask {
  ASK_ABOUT = 1, ASK_WAITED, ASK_CLOCK, ASK_RESOLUTION, ASK_RANDOM, ASK_NUMBER, ASK_NUMBERS, ASK_PATHCONF, ASK_ERROR,
  ASK_KIND, ASK_CLOSED, ASK_SIGNAL, ASK_LEFT, ASK_COUNT, LAST_SURE,
  ASK_STAT, ASK_FSTAT, ASK_STATFS, ASK_FSTATFS, ASK_PREAD, ASK_PWRITE, ASK_FTRUNCATE, ASK_TRUNCATE, ASK_FALLOCATE,
  ASK_FSYNC, ASK_FLOCK, ASK_LOCKED, ASK_UNLINK, ASK_RENAME, ASK_LINK, ASK_SYMLINK, ASK_MKDIR, ASK_MKNOD, ASK_ACCESS,
  ASK_CHMOD, ASK_FCHMOD, ASK_CHOWN, ASK_FCHOWN, ASK_UTIMES, ASK_READLINK, ASK_REALPATH, ASK_GETCWD, ASK_CHDIR,
  ASK_FCHDIR, ASK_LISTING, ASK_GETXATTR, ASK_FGETXATTR, ASK_LISTXATTR, ASK_FLISTXATTR, ASK_IOCTL, ASK_SOCKNAME,
  ASK_PEERNAME, ASK_KILL, ASK_CHILD, ASK_SYSINFO, ASK_UNAME, ASK_USAGE, ASK_TIMES, ASK_AFFINITY, ASK_SIGNALS, ASK_TIMER,
  ASK_NET, ASK_HOSTS, ASK_EXEC
};

typedef struct {
  enum ask what;
  int at, at_second;  /* descriptors of the host: of the file, or of the directories that the paths begin at */
  const char *path, *second;
  int64_t a, b;
  const void *bytes;  /* that go with the question */
  size_t length;
  size_t room;        /* for the bytes of the answer, at most PIECE */
} question;

enum state { FREE, LIVE, DONE };
/* Whether a signal ends a wait: never; one of another thread; or one from outside too, though nothing else is there
 * that could end it. */
enum light { HEAVY, LIGHT, LIGHTER };

typedef struct {
  int word;                /* its thread sleeps while this is 0 */
  enum state state;
  bool sleeps;             /* in nap() */
  bool wants_turn;         /* .. until it has the turn, and is not parked */
  bool in_call;            /* .. until its call goes on */
  bool parked;
  const void *on;          /* what it is parked at */
  const char *waits_for;   /* .. and what that is */
  void *then;              /* the mutex that a condition's waiter needs after that */
  uint64_t ticket;         /* who was parked first */
  bool outside, ready;     /* parked for the outside too; which has answered */
  bool woken;              /* .. and was unparked by another thread */
  uint64_t pushes;         /* since it was parked */
  uint64_t until;          /* of a rerun: at how many pushes the outside answers, or NEVER */
  bool lacks;              /* of a rerun: the log has no outcome for its call */
  bool at_host;            /* parked, and waits there */
  int waker;               /* of a recording: a descriptor of the host that has it come back from there, or 0 */
  bool flag;               /* of a reader or writer: it wants to write */
  bool detached, joined;
  pthread_t id;
  uint64_t calls;          /* that it has made */
  uint64_t seen;           /* .. and those that who has the turn had made, when it last looked */
  uint64_t outcomes;       /* that came for it */
  uint64_t chance;         /* the state of its delays */
  uint32_t digest;         /* of what it has asked and written since its last outcome */
  int error;               /* of the host, of its last outcome */
  int opened;              /* the descriptor of the host that it opened last */
  int made[2];             /* .. and those of sockets that the host made for a question */
  const question *asked;   /* what it asks the oracle, or how it opens a door */
  int how, mode;           /* the flags and the mode of such an opening */
  void *caller;            /* where the call that is under way, or was made last, returns to in the program */
  uint8_t room[ROOM];
  uint64_t entries;        /* into functions that are ours */
  uint64_t comes;          /* of a rerun: at which of them the log has a signal come, or 0 */
  uint64_t blocked;        /* the signals that it blocks, a bit each: that of signal 1 is the lowest */
  uint64_t awaited;        /* .. and that it waits for, as sigwait does */
  bool due;                /* a signal is there for it that it does not block */
  enum light light;        /* whether a signal ends the wait that it is about to begin, or is in */
  bool interrupted;        /* a signal that a thread sent did */
  bool signalled;          /* .. or one from outside */
  int poked;               /* one came to its thread of the host, which does not sleep now */
  unsigned handled, cut;   /* handlers that it ran, and those of them that have calls fail */
  pid_t tid;               /* its number, once it asked for it */
  pid_t at_kernel;         /* .. and the one that it has at the host now */
} slot;

#define NEVER UINT64_MAX

extern slot slots[SLOTS];
extern __thread int me;      /* the slot of this thread, or -1 */
extern __thread int inside;  /* above 0: the library's own calls go to libc */
extern bool on;              /* the run has begun and is not over */
extern bool begun;           /* .. and the program goes on by itself: what fails from here on is its own */

/* The settings of the run. The log of a rerun has them. */
typedef struct {
  bool replays, force, overlap, serial, strict, waits_forever, fixed;  /* fixed: the same addresses in each run */
  bool goes_on;                        /* from a program before this one, by exec */
  size_t threads;
  uint64_t seed, fault;
  const char *memory;                  /* paths below it live in the run; NULL: none */
  int stop_thread;                     /* of a rerun: it stops at this call of this thread, or at none: -1 */
  uint64_t stop_call;
  const char *passed[SLOTS];           /* paths below these go to the host unrecorded */
  size_t passes;
} settings;
extern settings run;

/* Whether this call is the program's own, by a thread of the run. Once the run is over, no thread goes on but the one
 * that ends the process. */
_Noreturn void stay(void);
extern int ender;  /* the slot of that thread; or NOBODY, while the run goes on */
enum { NOBODY = -2 };
/* signals.c: what came from outside, and is not taken yet; runs the handlers of what is there for this thread. */
extern uint64_t arrived;
void take_signals(void);
static inline void enter(void) {
  slot *s = &slots[me];
  s->entries++;
  if (__builtin_expect(s->due || s->entries == s->comes || __atomic_load_n(&arrived, __ATOMIC_RELAXED), 0))
    take_signals();
}
static inline bool takes_part(void) {
  if (__builtin_expect(ender != NOBODY, 0) && me >= 0 && me != ender) stay();
  if (!on || me < 0 || inside) return false;
  enter();
  return true;
}

/* lookups.c */
void *detio_find_next(void *handle, const char *name);
#define dlsym detio_find_next /* the program's is another */
/* The function of this name that the program would have called without us. */
#define NEXT(name)                     \
  static __typeof__(&name) next;       \
  if (!next) next = (__typeof__(&name))dlsym(RTLD_NEXT, #name)
/* .. and calls of libc's own, or before and after the run, go there. */
#define OFF(call)                    \
  if (!takes_part()) return call;    \
  NOTE_CALLER()

/* callers.c */
typedef struct { uintptr_t first, end; } range;
extern range own_code, c_library, loader, kernel_code;
static inline bool is_in(const range *r, const void *at) { return (uintptr_t)at - r->first < r->end - r->first; }
void begin_callers(void);
void *caller_of_frames(void *const *frame);
static inline void note_caller(void *from, void *frame) {
  if (is_in(&own_code, from)) from = caller_of_frames(frame);
  if (from) slots[me].caller = from;
}
#define NOTE_CALLER() note_caller(__builtin_return_address(0), __builtin_frame_address(0))
typedef struct { char text[160]; } place;
const char *place_of(const void *address, place *to);
static inline const char *caller_text(const slot *s, place *to) {
  return s->caller ? place_of(s->caller, to) : "its start";
}

/* turns.c */
void lock_run(void);
void unlock_run(void);
void turn(void);      /* takes the lock and waits for the turn */
void turn_end(void);  /* one unit of work; gives the lock back, and of a serial run waits for the turn before */
void turn_leave(void); /* the same for a thread that leaves the run */
void begin_turns(void);
void thread_begins(void);
/* At the turn: until another thread unparks it, and it has the turn again. `what` is a word for what it waits for. */
void park(const void *on, const char *what);
bool park_lightly(const void *on, const char *what, enum light); /* .. or until a signal comes: whether one did */
/* .. or until `ready` comes back from the outside; it is called of a recording alone, and ends where the thread's waker
 * can be read. Whether another thread did. */
bool park_outside(const void *on, void (*ready)(void *), void *given);
/* Of a recording, without the lock: waits until one of `count` doors is ready, until this time of CLOCK_MONOTONIC, or
 * until the thread is unparked, or a signal ends its wait. `doors` has room for one more. Whether a door is ready. */
bool wait_at_host(struct pollfd *doors, size_t count, const struct timespec *until);
void unpark(int i);              /* at the turn */
int first_waiter(const void *on);
uint64_t next_ticket(void);
int free_slot(void);
uint32_t make_call(const detio_call *, const void *text, size_t length, const void *second, size_t second_length,
                   detio_reply *, void *data, size_t room);
int settle(void);
void nap(int i);
int others_alive(void);
void finish_run(void);
extern detio machine;

/* clocks.c */
ssize_t affinity(size_t size, void *to);

/* locks.c */
void move_on(int w);
int mutex_owner(const void *at);

/* outside.c */
uint32_t go_outside(void);
extern uint64_t outsides; /* outcomes so far that could fail */
int64_t ask(const question *, void *answer, size_t *length);
int64_t asks(enum ask what, int at, const char *path, int64_t a, void *answer, size_t room);
/* At the turn, which it gives up with the lock: waits for the outside, which has one record. `ready` says what is
 * there, in `count` bits of `bits`, and is called of a recording alone. */
bool wait_outside(const void *on, void (*ready)(void *), void *given, int16_t *bits, size_t count);
/* .. until another thread unparks it from this, or until this time of this clock: whether it was unparked. */
bool wait_until(const void *on, clockid_t clock, const struct timespec *until);
static inline bool was_cut(void) { return slots[me].interrupted || slots[me].signalled; } /* the wait, by a signal */
void digest(const void *bytes, size_t length);

/* Before the bytes of each answer. */
typedef struct {
  uint64_t pushes;  /* of ASK_WAITED: at which the outside answered, or NEVER */
  int64_t result;
  uint32_t digest;  /* of what the thread asked and wrote since its last answer */
  uint16_t error, what;
} answer_head;

/* diverged.c */
const char *question_asked(const question *);
const char *call_asked(const detio_outside *, const question *);  /* a question, where the call is one */
_Noreturn void end_diverged(const char *asked, const answer_head *); /* what the log has, or NULL: its next record */

/* log.c */
const uint8_t *next_record(int i, uint8_t *kind, uint8_t *error, size_t *length);
void open_log(void);
void write_log(void);
uint64_t next_pushes(int i);  /* of a rerun: what the next answer for thread i has as its count of pushes */
bool has_outcomes(int i);
uint64_t next_signal(int i);  /* of a rerun: the entry at which a signal comes, where that is next for thread i; or 0 */
void compare_about(void);

/* exec.c */
#define PATH_PLACE 0x680000000000 /* where the path stands of a program that the run goes on as: none else may begin */
long look_for_program(const question *, uint8_t *out);
void begin_as_next(void);           /* of a program that the run goes on as: its turns and counts go on */

/* kept.c */
void take_kept(void);               /* what the program before this one left open */

/* the end of a run by us */
_Noreturn void ends(int status, const char *format, ...) __attribute__((format(printf, 2, 3)));
void say(const char *format, ...) __attribute__((format(printf, 1, 2)));
/* What is refused, or goes past the run: a line once for each kind, with the caller. A strict run ends there. */
void uncovered(const char *kind, const char *format, ...) __attribute__((format(printf, 2, 3)));
void uncovered_at(const void *caller, const char *kind, const char *format, ...) __attribute__((format(printf, 3, 4)));

/* descriptors.c: what is known of each number of the machine */
enum kind { NONE, MEMORY, PIPE, HOST, STREAM, LISTENER, SOCKET, NET, STANDARD, EVENT, EPOLL, TIMER };
/* What is on its way in memory, from one end to the other. */
typedef struct {
  int64_t filled;
  int64_t most;   /* bytes; where so many are there, a write waits */
  bool reader_gone, writer_gone;
} channel;
typedef struct {
  enum kind kind;
  int real;       /* the descriptor of the host; of STANDARD 1 or 2 */
  bool nonblock, directory, waits;
  channel *in, *out; /* of an end of a pipe or pair */
  void *object;      /* of EVENT, EPOLL and TIMER */
  int64_t in_nanos, out_nanos; /* of NET: how long a read or a write waits; 0: for ever */
} opened_file;
bool is_ours(int fd);
opened_file *opened_at(int fd);
int real_of(int fd);
int number_for(const opened_file *); /* the least that refers to it, or -1 */
int number_named(const char *path);
int fails(uint32_t error);
int takes_door(int real);  /* a number for what is open at the host, of a recording, or of its log */
int opens_at(int at, const char *path, int how, int mode);
int64_t plain_call(const detio_call *, const void *text, size_t length, void *data, size_t room);
void *new_opened(int fd, enum kind kind, int real);
void begin_descriptors(void);
bool wait_for_door(int fd, short events); /* false: a handler has the call fail with EINTR */
int64_t call_on(int fd, uint32_t kind, int64_t number);
void refer(int fd, opened_file *); /* what a number refers to from now on */
int control(int fd, int what, long given); /* as fcntl */

/* readiness.c */
bool await_bytes(const opened_file *); /* of a pipe or pair, until it has some, or nobody writes it; false: EINTR */
void note_moved(const opened_file *, int64_t taken, int64_t put);
void note_closed(const opened_file *, bool reads, bool writes); /* this end does not any more */
void join_ends(opened_file *, opened_file *, bool both_ways);
void await_doors(struct pollfd *doors, size_t count, int64_t nanos);
void wake_pollers(void); /* at the turn */
int64_t now_in_recording(void);
enum { LOOKS_AGAIN = -2 };
/* Waits until one is ready, or for so long (-1: for ever): how many are; or LOOKS_AGAIN, once `changes` (if it is not
 * NULL) is another number than `seen`. */
int poll_all(struct pollfd *fds, size_t count, int64_t nanos, const unsigned *changes, unsigned seen);

/* nets.c */
struct msghdr;
struct sockaddr;
long call_net(const question *, uint8_t *out);
long call_hosts(const question *, uint8_t *out);
size_t bytes_of_net(const question *, long result);
int new_net(int domain, int type, int protocol);
int new_nets(int domain, int type, int protocol, int fds[2]);
int bind_net(int fd, const struct sockaddr *, unsigned length);
int listen_net(int fd, int count);
int shut_net(int fd, int how);
int connect_net(int fd, const struct sockaddr *, unsigned length);
int accept_net(int fd, int flags);
ssize_t send_net(int fd, const void *, size_t count, int flags, const struct sockaddr *, unsigned length);
ssize_t receive_net(int fd, void *, size_t count, int flags, struct sockaddr *, unsigned *length, int *said);
bool has_control(const struct msghdr *);
ssize_t send_parts(int fd, const struct msghdr *, int flags);
ssize_t receive_parts(int fd, struct msghdr *, int flags);
int set_net(int fd, int level, int option, const void *, unsigned length);
int get_net(int fd, int level, int option, void *, unsigned *length);

/* events.c */
short ready_event(const opened_file *, short events);
ssize_t read_event(const opened_file *, void *to, size_t room);
ssize_t write_event(const opened_file *, const void *of, size_t length);
void forget_told(const opened_file *);
int new_number(enum kind kind, size_t size, void **object, int flags);
void look_again(void); /* at the turn: what some epoll looks at is another */

/* timers.c */
short ready_timer(const opened_file *, short events);
ssize_t read_timer(const opened_file *, void *to, size_t room);
int64_t until_timers(const struct pollfd *fds, size_t count);
int64_t recorded_now(clockid_t clock);

/* names.c */
enum where { IN_RUN, PASSED, OUTSIDE };
enum where where_is(const char *path);
const char *in_memory(const char *path);
bool asked_of_us(const char *path);  /* whether the run answers for a path */

/* files.c */
void begin_files(void);
struct _IO_FILE *new_stream(int fd, const char *mode);
bool is_stream(struct _IO_FILE **file); /* whether a FILE is ours, also where it was kept from before the run */

/* process.c */
void begin_processes(void);

/* signals.c */
#define BIT(number) (1ull << ((number) - 1))
enum { SIGNALS = 65 };
void begin_signals(void);
void forget_signals(int i);         /* of a thread that was there before */
bool is_interrupted(bool restarts); /* runs what is due: whether a handler ran that has the call fail with EINTR */
bool take_awaited(uint64_t set, siginfo_t *to); /* at the turn: one that is there, in place of its handler */
uint64_t signals_there(void);       /* for this thread, or for any */
void set_blocked(uint64_t set);     /* of this thread, here and at the host */
bool begin_masked(const sigset_t *mask, uint64_t *kept); /* for a wait; false: a handler ran already */
int end_masked(const sigset_t *mask, uint64_t kept, int result);
void interrupt(int i);              /* at the turn: a signal ends the wait of a thread, where it is light */
long take_arrived(siginfo_t *to);   /* the number of one that came from outside, or 0 */
int taker(void);                    /* where all are parked: the thread that takes what comes from outside, or -1 */
extern bool timer_is_set;           /* .. and so a signal will come */

/* ioctls.c */
long call_ioctl(const question *, uint8_t *out);

/* alarms.c */
long call_timer(long call, int64_t given, const void *in, uint8_t *out);

/* counts.c */
void begin_counts(void);
bool counts_trap(void);             /* rdtsc comes as a signal */
void free_counts(bool free);
long count_at_host(uint8_t *out);
bool answer_count(const siginfo_t *, void *context); /* whether this signal was an rdtsc, which has its answer now */

/* handlers.c */
void set_host_default(int number);  /* what the host does by itself */
struct sigaction handling(int number);
bool is_quiet(int number);          /* it has no handler and no effect */
void set_default(int number);
void begin_handlers(void (*handle)(int, siginfo_t *, void *));

/* net.c */
void forbid_effects(void);
void forbid_strangers(void);

/* heap.c */
void *detio_heap_malloc(size_t);
void *detio_heap_calloc(size_t, size_t);
void *detio_heap_realloc(void *, size_t);
void detio_heap_free(void *);
size_t heap_size(void);
extern size_t heap_used, heap_limit; /* bytes in use; and when a line says so */

/* System calls that no library sees: the result, or an error's number below 0. */
static inline long kernel(long n, long a, long b, long c, long d, long e, long f) {
  long r;
  register long r10 __asm__("r10") = d;
  register long r8 __asm__("r8") = e;
  register long r9 __asm__("r9") = f;
  __asm__ volatile("syscall"
                   : "=a"(r)
                   : "0"(n), "D"(a), "S"(b), "d"(c), "r"(r10), "r"(r8), "r"(r9)
                   : "rcx", "r11", "memory");
  return r;
}
#define KERNEL(n, ...) KERNEL_(n, __VA_ARGS__, 0, 0, 0, 0, 0, 0)
#define KERNEL_(n, a, b, c, d, e, f, ...) \
  kernel(n, (long)(a), (long)(b), (long)(c), (long)(d), (long)(e), (long)(f))

#endif
