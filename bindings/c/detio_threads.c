#include "detio_threads.h"

#include "detio_host.h"

#include <stdarg.h>
#include <stdio.h>
#include <stdlib.h>
#include <string.h>
#include <time.h>
#include <unistd.h>

/* The most bytes of a call that goes outside, with room for the end byte of a path. */
enum { ROOM = 32768 };

/* Whether a thread stays where it is until another one goes on. */
static bool rests(detio_run *run, size_t thread) {
  uint32_t phase = 0;
  if (detio_phase(&run->machine, thread, &phase) != DETIO_DONE) return true;
  return phase == DETIO_WANTS_TABLE || phase == DETIO_WANTS_OBJECT || phase == DETIO_ENDED ||
         (phase == DETIO_OUTSIDE && run->lacks[thread]);
}

/* Whether a thread that has no outcome stops the replay: it has the turn, and no other can go on. */
static bool is_last(detio_run *run, size_t thread) {
  bool has = false;
  if (detio_has_turn(&run->machine, thread, &has) != DETIO_DONE || !has) return false;
  for (size_t i = 0; i < run->threads; i++) {
    if (i != thread && !rests(run, i)) return false;
  }
  return true;
}

/* (of a clock that goes on by some milliseconds at a time, which costs less) */
static int64_t milliseconds_now(void) {
  struct timespec now = {0};
  clock_gettime(CLOCK_MONOTONIC_COARSE, &now);
  return (int64_t)now.tv_sec * 1000 + now.tv_nsec / 1000000;
}

/* Nobody waits any more. */
static void wake_all(detio_run *run) {
  for (size_t i = 0; i < run->threads; i++) pthread_cond_signal(&run->changed[i]);
}

/* The run is stopped, so that no thread waits for what does not come. */
static uint32_t stops(detio_run *run, size_t self, uint32_t cause, uint32_t code) {
  detio_stop(&run->machine, cause, self);
  wake_all(run);
  return code;
}

static bool is_granted(uint32_t phase) { return phase == DETIO_GRANTED || phase == DETIO_TO_OUTSIDE; }

/* Numbers the calls that were granted since the last look, by their clocks, which is the order of turns: who takes the
 * table does so at a later clock than that at which it was let go. A call has a number once it is granted. */
static void number_grants(detio_run *run) {
  for (;;) {
    size_t first = run->threads;
    uint64_t least = UINT64_MAX;
    for (size_t i = 0; i < run->threads; i++) {
      uint32_t phase = 0;
      uint64_t clock = 0;
      if (run->seats[i].turn || detio_phase(&run->machine, i, &phase) != DETIO_DONE || !is_granted(phase)) continue;
      if (detio_clock(&run->machine, i, &clock) != DETIO_DONE || clock >= least) continue;
      least = clock;
      first = i;
    }
    if (first == run->threads) return;
    run->seats[first].turn = ++run->turns;
  }
}

/* Makes the attempts of whoever has the turn. */
static uint32_t settle(detio_run *run) {
  uint32_t code;
  do {
    code = detio_settle(&run->machine);
  } while (code == DETIO_MORE);
  if (code == DETIO_CLOCK_FULL) code = stops(run, 0, DETIO_STOP_CLOCK_FULL, DETIO_STOPPED);
  number_grants(run);
  return code;
}

/* A blocked thread makes its call again, which gets a turn of its own. */
static uint32_t makes_again(detio_run *run, size_t thread) {
  run->seats[thread].turn = 0;
  return detio_again(&run->machine, thread);
}

/* Goes on for a thread that waits, so that it is woken once a call: whether it moved. */
static bool serve(detio_run *run, size_t thread) {
  detio_want *want = &run->wants[thread];
  uint32_t phase = 0;
  if (!want->waits || want->done || detio_phase(&run->machine, thread, &phase) != DETIO_DONE) return false;
  if (phase == DETIO_TO_OUTSIDE || (run->lacks[thread] && is_last(run, thread))) {
    pthread_cond_signal(&run->changed[thread]);
    return false;
  }
  if (phase != DETIO_GRANTED && phase != DETIO_RECORDED) return false;
  want->code = detio_answer(&run->machine, thread, want->reply, want->data, want->room);
  if (want->code == DETIO_AGAIN) {
    want->code = makes_again(run, thread);
    if (want->code == DETIO_DONE) return true;
  }
  want->done = true;
  pthread_cond_signal(&run->changed[thread]);
  return true;
}

/* Goes on for all threads that wait, but this one: whoever has the lock gives them their replies. */
static uint32_t settle_all(detio_run *run, size_t self) {
  for (;;) {
    bool moved = false;
    uint32_t code = settle(run);
    if (code != DETIO_DONE) return code;
    for (size_t i = 0; i < run->threads; i++) {
      if (i != self && serve(run, i)) moved = true;
    }
    if (!moved) return code;
  }
}

/* What the run has open at the host is closed with it. */
static void remember(detio_run *run, const detio_outside *asked, uint64_t door, const detio_outcome *came) {
  bool opens = asked->kind == DETIO_ASKS_OPEN || asked->kind == DETIO_ASKS_LISTEN ||
               asked->kind == DETIO_ASKS_CONNECT || asked->kind == DETIO_ASKS_ACCEPT;
  if (opens && came->error == 0 && run->open < DETIO_DOORS_MOST) run->doors[run->open++] = (int)came->opened;
  for (size_t i = 0; asked->kind == DETIO_ASKS_CLOSE && i < run->open; i++) {
    if (run->doors[i] == (int)door) {
      run->doors[i] = run->doors[--run->open];
      return;
    }
  }
}

/* Records what came: nothing is lost where memory is short for a while. */
static uint32_t record(detio_run *run, size_t thread, const detio_outcome *came, const uint8_t *data) {
  struct timespec pause = {.tv_nsec = 10 * 1000 * 1000};
  for (int tried = 0;; tried++) {
    uint32_t code = detio_record(&run->machine, thread, came, data, came->length);
    if (code == DETIO_DONE) return code;
    if (code != DETIO_NO_MEMORY || tried == 100) return stops(run, thread, DETIO_STOP_MEMORY, code);
    pthread_mutex_unlock(&run->lock);
    nanosleep(&pause, NULL);
    pthread_mutex_lock(&run->lock);
  }
}

/* A thread that is outside takes its next outcome from the log, if that has one. */
static uint32_t take_next(detio_run *run, size_t thread, uint64_t door, uint8_t *data) {
  detio_outcome came;
  uint32_t code = detio_next(&run->machine, thread, &came, data, ROOM);
  run->seats[thread].outcomes += code == DETIO_DONE;
  if (code == DETIO_END_OF_LOG || code == DETIO_DIVERGED) {
    run->lacks[thread] = code;
    return DETIO_DONE;
  }
  if (code != DETIO_DONE) return stops(run, thread, DETIO_STOP_MEMORY, code);
  came.back = door;
  return record(run, thread, &came, data);
}

/* A thread that is outside reaches the host, while the lock is free. */
static uint32_t reach(detio_run *run, size_t thread, const detio_outside *asked, bool goes, uint64_t door,
                      uint8_t *data) {
  detio_outcome came;
  settle_all(run, thread);
  pthread_mutex_unlock(&run->lock);
  detio_host_reach(asked, goes, door, run->wait, data, ROOM, &came);
  pthread_mutex_lock(&run->lock);
  run->last = milliseconds_now();
  came.back = door;
  remember(run, asked, door, &came);
  return record(run, thread, &came, data);
}

/* A thread goes outside, and comes back with its outcome, if there is one. */
static uint32_t go_outside(detio_run *run, size_t thread) {
  detio_outside asked;
  bool goes = false;
  uint64_t door = 0;
  uint8_t *data = malloc(ROOM);
  if (!data) return DETIO_NO_MEMORY;
  uint32_t code = detio_request(&run->machine, thread, &asked, data, ROOM);
  if (code == DETIO_DONE) code = detio_begin_outside(&run->machine, thread, &goes, &door);
  if (code == DETIO_CLOCK_FULL) code = stops(run, thread, DETIO_STOP_CLOCK_FULL, DETIO_STOPPED);
  if (code == DETIO_DONE) {
    run->seats[thread].outside = asked;
    code = run->replays ? take_next(run, thread, door, data) : reach(run, thread, &asked, goes, door, data);
  }
  free(data);
  return code;
}

/* A thread without an outcome stops the replay, where no other can go on. */
static uint32_t stops_replay(detio_run *run, size_t thread) {
  run->strayed = thread + 1;
  detio_clock(&run->machine, thread, &run->strayed_clock);
  uint32_t cause = run->lacks[thread] == DETIO_END_OF_LOG ? DETIO_STOP_END_OF_LOG : DETIO_STOP_DIVERGED;
  return stops(run, thread, cause, run->lacks[thread]);
}

/* Waits until another thread goes on: whether it brought the reply. */
static bool is_served(detio_run *run, size_t thread, detio_reply *reply, uint8_t *data, size_t room) {
  detio_want *want = &run->wants[thread];
  *want = (detio_want){.reply = reply, .data = data, .room = room, .waits = true};
  pthread_cond_wait(&run->changed[thread], &run->lock);
  want->waits = false;
  return want->done;
}

/* The sum of all clocks: it is greater after each event that moves a clock. */
static uint64_t clocks(detio_run *run) {
  uint64_t sum = 0, clock = 0;
  for (size_t i = 0; i < run->threads; i++) {
    if (detio_clock(&run->machine, i, &clock) == DETIO_DONE) sum += clock;
  }
  return sum;
}

/* Goes on with the call that a thread has asked, until its reply, or until it would have to wait. */
static uint32_t go_on(detio_run *run, size_t thread, detio_reply *reply, uint8_t *data, size_t room, bool waits) {
  uint64_t before = waits ? 0 : clocks(run);
  for (;;) {
    uint32_t phase = 0;
    uint32_t code = settle_all(run, thread);
    if (code == DETIO_DONE) code = detio_phase(&run->machine, thread, &phase);
    if (code != DETIO_DONE) return code;
    if (phase == DETIO_GRANTED || phase == DETIO_RECORDED) {
      code = detio_answer(&run->machine, thread, reply, data, room);
      if (code == DETIO_AGAIN) continue;
      if (code == DETIO_DONE) settle_all(run, thread);
      return code;
    }
    if (phase == DETIO_BLOCKED) {
      code = makes_again(run, thread);
    } else if (phase == DETIO_TO_OUTSIDE) {
      code = go_outside(run, thread);
    } else if (phase == DETIO_OUTSIDE && run->lacks[thread] && is_last(run, thread)) {
      return stops_replay(run, thread);
    } else if (!rests(run, thread) || phase == DETIO_ENDED) {
      return DETIO_WRONG_PHASE;
    } else if (!waits) {
      return clocks(run) == before ? DETIO_MORE : DETIO_MOVED;
    } else if (is_served(run, thread, reply, data, room)) {
      return run->wants[thread].code;
    }
    if (code != DETIO_DONE) return code;
  }
}

static uint32_t make(detio_run *run, size_t threads, bool replays, unsigned wait) {
  run->threads = threads;
  run->replays = replays;
  run->wait = wait;
  run->last = milliseconds_now();
  pthread_mutex_init(&run->lock, NULL);
  for (size_t i = 0; i < DETIO_THREADS_MOST; i++) pthread_cond_init(&run->changed[i], NULL);
  return DETIO_DONE;
}

uint32_t detio_run_begin(detio_run *run, const detio_settings *settings, unsigned wait) {
  memset(run, 0, sizeof *run);
  if (wait > DETIO_WAIT_MOST) return DETIO_BAD_SETTINGS;
  uint32_t code = detio_new(&run->machine, settings);
  return code == DETIO_DONE ? make(run, settings->threads, false, wait) : code;
}

uint32_t detio_run_replay(detio_run *run, const uint8_t *log, size_t length) {
  memset(run, 0, sizeof *run);
  uint32_t code = detio_open_log(&run->machine, log, length);
  if (code == DETIO_DONE && !(run->log = malloc(length))) {
    detio_free(&run->machine);
    code = DETIO_NO_MEMORY;
  }
  if (code != DETIO_DONE) return code;
  memcpy(run->log, log, length);
  run->log_length = length;
  /* The header, which was read, has the number of threads after the magic and the version. */
  return make(run, (size_t)log[6] << 8 | log[7], true, 0);
}

static const uint8_t nothing[1];

static uint32_t asks(detio_run *run, size_t thread, const detio_call *call, const void *text, size_t text_length,
                     const void *second, size_t second_length) {
  if ((!text && text_length) || (!second && second_length)) return DETIO_NOT_A_CALL;
  uint32_t code = detio_ask(&run->machine, thread, call, text ? text : nothing, text_length,
                            second ? second : nothing, second_length);
  if (code != DETIO_DONE) return code;
  run->seats[thread].calls++;
  run->seats[thread].turn = 0;
  return code;
}

/* A thread takes the lock, and lets it go. */
static void enter(detio_run *run, size_t thread) {
  pthread_mutex_lock(&run->lock);
  run->last = milliseconds_now();
  run->seats[thread].in_call = true;
}

static uint32_t leave(detio_run *run, size_t thread, uint32_t code) {
  /* A loop of events comes back to a call that it began. */
  run->seats[thread].in_call = code == DETIO_MORE || code == DETIO_MOVED;
  pthread_mutex_unlock(&run->lock);
  return code;
}

static uint32_t goes_on(detio_run *run, size_t thread, detio_reply *reply, void *data, size_t room, bool waits) {
  uint8_t none[1];
  return go_on(run, thread, reply, data ? data : none, data ? room : 0, waits);
}

/* Makes the call of a thread and, where it waits, waits for the reply. */
static uint32_t calls(detio_run *run, size_t thread, const detio_call *call, const void *text, size_t text_length,
                      const void *second, size_t second_length, detio_reply *reply, void *data, size_t room,
                      bool waits) {
  if (thread >= run->threads) return DETIO_NO_THREAD;
  enter(run, thread);
  uint32_t code = asks(run, thread, call, text, text_length, second, second_length);
  if (code == DETIO_DONE) code = goes_on(run, thread, reply, data, room, waits);
  return leave(run, thread, code);
}

/* Goes on with the call that a thread made before. */
static uint32_t resumes(detio_run *run, size_t thread, detio_reply *reply, void *data, size_t room, bool waits) {
  if (thread >= run->threads) return DETIO_NO_THREAD;
  enter(run, thread);
  return leave(run, thread, goes_on(run, thread, reply, data, room, waits));
}

uint32_t detio_thread_call(detio_run *run, size_t thread, const detio_call *call, const void *text,
                           size_t text_length, const void *second, size_t second_length, detio_reply *reply,
                           void *data, size_t room) {
  return calls(run, thread, call, text, text_length, second, second_length, reply, data, room, true);
}

uint32_t detio_thread_resume(detio_run *run, size_t thread, detio_reply *reply, void *data, size_t room) {
  return resumes(run, thread, reply, data, room, true);
}

uint32_t detio_thread_start(detio_run *run, size_t thread, const detio_call *call, const void *text,
                            size_t text_length, const void *second, size_t second_length, detio_reply *reply,
                            void *data, size_t room) {
  return calls(run, thread, call, text, text_length, second, second_length, reply, data, room, false);
}

uint32_t detio_thread_try(detio_run *run, size_t thread, detio_reply *reply, void *data, size_t room) {
  return resumes(run, thread, reply, data, room, false);
}

uint32_t detio_thread_work(detio_run *run, size_t thread, uint64_t units) {
  if (thread >= run->threads) return DETIO_NO_THREAD;
  enter(run, thread);
  uint32_t code = detio_work(&run->machine, thread, units);
  if (code == DETIO_DONE) code = settle_all(run, thread);
  return leave(run, thread, code);
}

uint32_t detio_thread_end(detio_run *run, size_t thread) {
  if (thread >= run->threads) return DETIO_NO_THREAD;
  enter(run, thread);
  uint32_t code = detio_end(&run->machine, thread);
  if (code == DETIO_DONE) settle_all(run, thread);
  return leave(run, thread, code);
}

uint32_t detio_thread_turn(detio_run *run, size_t thread, uint64_t *turn, uint64_t *clock) {
  if (thread >= run->threads) return DETIO_NO_THREAD;
  pthread_mutex_lock(&run->lock);
  uint32_t code = detio_clock(&run->machine, thread, clock);
  if (code == DETIO_DONE) *turn = run->seats[thread].turn;
  pthread_mutex_unlock(&run->lock);
  return code;
}

void detio_run_stop(detio_run *run, uint32_t cause, size_t thread) {
  pthread_mutex_lock(&run->lock);
  detio_stop(&run->machine, cause, thread);
  wake_all(run);
  pthread_mutex_unlock(&run->lock);
}

uint32_t detio_run_finish(detio_run *run, detio_run_end *ended) {
  pthread_mutex_lock(&run->lock);
  uint32_t code = detio_finish(&run->machine, ended);
  bool all = code == DETIO_DONE && ended->how == DETIO_ALL_ENDED;
  /* The least thread with a record that it did not use diverged. */
  for (size_t i = run->threads; all && run->replays && i-- > 0;) {
    uint64_t unused = 0;
    if (detio_unused(&run->machine, i, &unused) != DETIO_DONE || !unused) continue;
    ended->how = DETIO_FOR_DIVERGED;
    ended->thread = i;
  }
  if (code == DETIO_DONE) {
    run->ended = *ended;
    wake_all(run);
  }
  pthread_mutex_unlock(&run->lock);
  return code;
}

uint32_t detio_run_log(detio_run *run, size_t from, void *data, size_t room, size_t *length) {
  uint8_t none[1];
  pthread_mutex_lock(&run->lock);
  uint32_t code = detio_log(&run->machine, from, data ? data : none, data ? room : 0, length);
  pthread_mutex_unlock(&run->lock);
  return code;
}

void detio_run_free(detio_run *run) {
  detio_free(&run->machine);
  free(run->log);
  run->log = NULL;
  while (run->open) close(run->doors[--run->open]);
  for (size_t i = 0; i < DETIO_THREADS_MOST; i++) pthread_cond_destroy(&run->changed[i]);
  pthread_mutex_destroy(&run->lock);
}

uint32_t detio_version(void) { return DETIO_VERSION; }

size_t detio_run_size(void) { return sizeof(detio_run); }

const char *detio_error_name(uint32_t error) {
  static const char *const names[] = {
      "EBADF",  "EINVAL",  "EOVERFLOW", "ESPIPE", "EFBIG",  "EAGAIN", "EPIPE",  "EINTR",        "EIO",
      "ENOENT", "EEXIST",  "ENOTDIR",   "EISDIR", "ENOTEMPTY", "EPERM", "EACCES", "EMFILE",     "ENFILE",
      "ENOSPC", "ENAMETOOLONG", "ENOTSOCK", "EBUSY", "ECONNREFUSED", "ECONNRESET", "EADDRINUSE", "ETIMEDOUT"};
  return error >= 1 && error <= sizeof names / sizeof *names ? names[error - 1] : NULL;
}

const char *detio_code_name(uint32_t code) {
  static const char *const names[] = {
      "DETIO_DONE",       "DETIO_MORE",        "DETIO_AGAIN",       "DETIO_NO_SESSION", "DETIO_NO_THREAD",
      "DETIO_STOPPED",    "DETIO_WRONG_PHASE", "DETIO_CLOCK_FULL",  "DETIO_NO_MEMORY",  "DETIO_LOG_FULL",
      "DETIO_NO_ANSWER",  "DETIO_NO_ROOM",     "DETIO_NOT_A_CALL",  "DETIO_BAD_SETTINGS", "DETIO_NOT_A_LOG",
      "DETIO_END_OF_LOG", "DETIO_DIVERGED",    "DETIO_OVER"};
  if (code == DETIO_MOVED) return "DETIO_MOVED";
  return code < sizeof names / sizeof *names ? names[code] : NULL;
}

const char *detio_end_name(uint32_t how) {
  static const char *const names[] = {
      "ended", "some threads have not ended", "stopped: no memory", "stopped: the log has no room",
      "stopped: a clock is full", "stopped: the log ended", "stopped: the log diverged"};
  return how < sizeof names / sizeof *names ? names[how] : NULL;
}

/* ## Lines for people */

/* A line that is written piece by piece. */
typedef struct {
  char *at;
  size_t room, length;
} line;

static void say(line *to, const char *format, ...) {
  va_list words;
  va_start(words, format);
  int more = vsnprintf(to->length < to->room ? to->at + to->length : NULL,
                       to->length < to->room ? to->room - to->length : 0, format, words);
  va_end(words);
  if (more > 0) to->length += (size_t)more;
  if (to->length >= to->room) to->length = to->room ? to->room - 1 : 0;
}

/* Whether a thread keeps others waiting, being in no call, or waits for another one in a call. */
static bool is_away(detio_run *run, size_t thread, bool waits) {
  uint32_t phase = 0;
  if (detio_phase(&run->machine, thread, &phase) != DETIO_DONE || phase == DETIO_ENDED) return false;
  if (!waits) return !run->seats[thread].in_call;
  return run->seats[thread].in_call && (phase == DETIO_WANTS_TABLE || phase == DETIO_WANTS_OBJECT);
}

/* The numbers of the threads that are so: how many there are. */
static size_t say_threads(detio_run *run, line *to, bool waits) {
  size_t count = 0, said = 0;
  for (size_t i = 0; i < run->threads; i++) count += is_away(run, i, waits);
  for (size_t i = 0; to && i < run->threads; i++) {
    if (!is_away(run, i, waits)) continue;
    say(to, "%s%zu", said == 0 ? count == 1 ? "thread " : "threads " : said + 1 == count ? " and " : ", ", i);
    said++;
  }
  return count;
}

size_t detio_run_still(detio_run *run, unsigned milliseconds, char *text, size_t room) {
  line to = {.at = text, .room = room};
  pthread_mutex_lock(&run->lock);
  int64_t still = milliseconds_now() - run->last;
  size_t away = say_threads(run, NULL, false), waiting = say_threads(run, NULL, true);
  if (still >= milliseconds && away && waiting) {
    say(&to, "no event for %lld s: ", (long long)(still / 1000));
    say_threads(run, &to, false);
    say(&to, "%s in no call (computing, or waiting for something outside of the run, which looks the same); ",
        away == 1 ? " is" : " are");
    say_threads(run, &to, true);
    say(&to, "%s for the turn", waiting == 1 ? " waits" : " wait");
  }
  pthread_mutex_unlock(&run->lock);
  return to.length;
}

static uint64_t number_at(const uint8_t *bytes, size_t count) {
  uint64_t number = 0;
  for (size_t i = 0; i < count; i++) number = number << 8 | bytes[i];
  return number;
}

static const char *request_name(uint32_t kind) {
  static const char *const names[] = {"call",   "open",    "read",   "write",    "seek",
                                      "listen", "connect", "accept", "shutdown", "close"};
  return names[kind < sizeof names / sizeof *names ? kind : 0];
}

/* The next record of a thread in the log (docs/log.md), as `detio show` has it: whether there is one. */
static bool say_record(const detio_run *run, size_t thread, line *to) {
  bool dated = number_at(run->log + 4, 2) == 2;
  size_t front = dated ? 27 : 19;
  for (size_t at = 16; at + front <= run->log_length && run->log[at] == 'R';) {
    const uint8_t *record = run->log + at;
    uint32_t error = record[front - 11];
    if (number_at(record + 1, 2) == thread && number_at(record + 3, 4) == run->seats[thread].outcomes) {
      say(to, "%s ", request_name(record[front - 12]));
      if (error) say(to, "fail %s", detio_error_name(error));
      else say(to, "ok %llu", (unsigned long long)number_at(record + front - 10, 8));
      if (dated) say(to, " of turn %llu", (unsigned long long)number_at(record + 7, 8));
      return true;
    }
    at += front + (size_t)number_at(record + front - 2, 2);
  }
  return false;
}

/* What a thread asked outside last. */
static void say_asked(const detio_outside *asked, line *to) {
  say(to, "%s", request_name(asked->kind));
  if (asked->kind == DETIO_ASKS_READ) say(to, " of %llu bytes", (unsigned long long)asked->asked);
  if (asked->kind == DETIO_ASKS_WRITE) say(to, " of %zu bytes", asked->length);
  if (asked->kind == DETIO_ASKS_LISTEN || asked->kind == DETIO_ASKS_CONNECT)
    say(to, " at port %llu", (unsigned long long)asked->asked);
}

size_t detio_run_strayed(detio_run *run, char *text, size_t room) {
  line to = {.at = text, .room = room};
  pthread_mutex_lock(&run->lock);
  if (run->strayed) {
    size_t thread = run->strayed - 1;
    say(&to, "thread %zu, call %llu, clock %llu: asked ", thread, (unsigned long long)run->seats[thread].calls,
        (unsigned long long)run->strayed_clock);
    say_asked(&run->seats[thread].outside, &to);
    say(&to, "; the log has ");
    if (!say_record(run, thread, &to)) say(&to, "no more of this thread");
  } else if (run->replays && run->ended.how == DETIO_FOR_DIVERGED) {
    size_t thread = run->ended.thread;
    say(&to, "thread %zu ended after call %llu; the log has more of it: ", thread,
        (unsigned long long)run->seats[thread].calls);
    say_record(run, thread, &to);
  }
  pthread_mutex_unlock(&run->lock);
  return to.length;
}
