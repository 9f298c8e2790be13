/* A driver of detio.h for a program's own threads: one lock, and a condition for each thread.
 *
 * Each thread of the run, numbered from 0, makes its calls by `detio_thread_call`, which returns once the call has its
 * reply, and at last calls `detio_thread_end`. Calls outside, to files of the host and to 127.0.0.1, are made while
 * the lock is free. A replay reaches nothing outside: a thread whose next outcome is not in the log waits, and where it
 * has the turn and no other thread can go on, the run is stopped. A thread that works for long says so by
 * `detio_thread_work`: until its next step no thread whose clock is greater goes on. */
#ifndef DETIO_THREADS_H
#define DETIO_THREADS_H

#include "detio.h"

#include <pthread.h>

#ifdef __cplusplus
extern "C" {
#endif

#define DETIO_THREADS_MOST 16
#define DETIO_DOORS_MOST 48

/* The version of this library: that of its calls and structs. */
#define DETIO_VERSION 1

/* Of detio_thread_start and detio_thread_try: the call is not done, but an event was made: the next try may go on. */
enum detio_driver_code { DETIO_MOVED = 32 };

/* What a thread that waits wants, and what it got from whoever had the lock. */
typedef struct {
  detio_reply *reply;
  uint8_t *data;
  size_t room;
  uint32_t code;
  bool waits, done;
} detio_want;

/* What a thread did last. */
typedef struct {
  uint64_t calls;    /* how many it has made, of which so many outcomes are in the log */
  uint64_t outcomes;
  uint64_t turn;     /* the place of its last call among all in the order of turns, from 1 */
  bool in_call;
  detio_outside outside; /* what it asked outside */
} detio_seat;

typedef struct {
  detio machine;
  detio_want wants[DETIO_THREADS_MOST];
  detio_seat seats[DETIO_THREADS_MOST];
  uint64_t turns;
  int64_t last;       /* when a thread came last, in milliseconds */
  uint8_t *log;       /* of a replay */
  size_t log_length;
  pthread_mutex_t lock;
  pthread_cond_t changed[DETIO_THREADS_MOST];
  size_t threads;
  bool replays;
  uint32_t lacks[DETIO_THREADS_MOST]; /* of a replay: why a thread that is outside has no outcome, or 0 */
  unsigned wait;                      /* for how many milliseconds a call waits for its peer, up to 60,000 */
  int doors[DETIO_DOORS_MOST];        /* what is open at the host, for which the run has descriptors */
  size_t open;
  size_t strayed; /* the number of the thread that stopped a replay, and 1; its clock then; and how the run ended */
  uint64_t strayed_clock;
  detio_run_end ended;
} detio_run;

/* A run begins, in place of nothing: one that was there is freed before. Reads and writes of streams and accepts wait
 * for their peer for `wait` milliseconds, 0 to 60,000, and then are made again at a later turn; 10 does for most. So
 * long wait a connection and the opening of a FIFO. For a longer wait DETIO_BAD_SETTINGS is returned. */
uint32_t detio_run_begin(detio_run *, const detio_settings *, unsigned wait);

/* A replay of a log begins, for as many threads as the log has. */
uint32_t detio_run_replay(detio_run *, const uint8_t *log, size_t length);

/* A call of a thread. `text` and `second` may be NULL where they have no bytes, and so may `data`. Where a length is
 * given for NULL, DETIO_NOT_A_CALL is returned. */
uint32_t detio_thread_call(detio_run *, size_t thread, const detio_call *, const void *text, size_t text_length,
                           const void *second, size_t second_length, detio_reply *, void *data, size_t room);

/* Goes on with a call for which DETIO_NO_ROOM, DETIO_NO_MEMORY or DETIO_MORE was returned. */
uint32_t detio_thread_resume(detio_run *, size_t thread, detio_reply *, void *data, size_t room);

/* The same two for a loop of events in one thread of the program. Where the call has to wait for another thread of the
 * run, DETIO_MOVED is returned if an event was made, and else DETIO_MORE; detio_thread_try goes on with it later. A
 * loop that tries all its threads goes on while one of them moved. */
uint32_t detio_thread_start(detio_run *, size_t thread, const detio_call *, const void *text, size_t text_length,
                            const void *second, size_t second_length, detio_reply *, void *data, size_t room);
uint32_t detio_thread_try(detio_run *, size_t thread, detio_reply *, void *data, size_t room);

uint32_t detio_thread_work(detio_run *, size_t thread, uint64_t units);
uint32_t detio_thread_end(detio_run *, size_t thread);

/* The place of a thread's last call among all calls in the order of turns, from 1, and the clock of the thread. */
uint32_t detio_thread_turn(detio_run *, size_t thread, uint64_t *turn, uint64_t *clock);

/* No thread goes on: for a thread that fails, so that none waits for it for ever. Each call that waits, and each that
 * is made later, is DETIO_STOPPED. The run is finished and freed once no thread is in a call. */
void detio_run_stop(detio_run *, uint32_t cause, size_t thread);

/* The run is over: a call that waits yet is DETIO_OVER. Of a replay that used not all records the end is
 * DETIO_FOR_DIVERGED. */
uint32_t detio_run_finish(detio_run *, detio_run_end *);

/* One line of what a person is to know, without a line break, cut to `room` with its end byte: its length, or 0 where
 * there is nothing to say. detio_run_still: no thread came for so many milliseconds, and one that is in no call keeps
 * others waiting. It may compute, or wait for something outside of the run: both look the same. detio_run_strayed:
 * where a replay stopped or has records left, what the thread asked, at which call and clock, and what the log has. */
size_t detio_run_still(detio_run *, unsigned milliseconds, char *line, size_t room);
size_t detio_run_strayed(detio_run *, char *line, size_t room);

/* The log from a place on, also while the threads go on. A reply is given only once its outcome is there. */
uint32_t detio_run_log(detio_run *, size_t from, void *data, size_t room, size_t *length);
void detio_run_free(detio_run *);

/* The size of a detio_run, for bindings. */
size_t detio_run_size(void);

/* The version of the library that is linked, to be compared with DETIO_VERSION. */
uint32_t detio_version(void);

/* The name of an error, as ENOENT, of a code, as DETIO_NO_ROOM, and of the end of a run, as `stopped: no memory`; NULL
 * where there is none of this number. */
const char *detio_error_name(uint32_t error);
const char *detio_code_name(uint32_t code);
const char *detio_end_name(uint32_t how);

#ifdef __cplusplus
}
#endif

#endif
