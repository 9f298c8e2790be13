/* A machine for the threads of a program: it records what comes from outside, and replays it.
 *
 * The program holds one lock around each call of this page; detio_threads.h does so. A `detio` is begun with
 * zeroes, stays where it is, and is neither copied nor written. No pointer is NULL, also where its length is 0, and
 * what is written is nothing else that the call is given. Each call but `detio_free` returns a code: what was refused
 * (3 and above) has changed nothing, except that where detio_record returns DETIO_LOG_FULL the run is stopped, and its
 * log may end inside a record. */
#ifndef DETIO_H
#define DETIO_H

#include <stdbool.h>
#include <stddef.h>
#include <stdint.h>

#ifdef __cplusplus
extern "C" {
#endif

enum detio_code {
  DETIO_DONE = 0,
  DETIO_MORE = 1,  /* detio_settle: there may be more to do */
  DETIO_AGAIN = 2, /* detio_answer: the thread makes its call again */
  DETIO_NO_SESSION = 3,
  DETIO_NO_THREAD = 4,
  DETIO_STOPPED = 5,
  DETIO_WRONG_PHASE = 6,
  DETIO_CLOCK_FULL = 7,
  DETIO_NO_MEMORY = 8,
  DETIO_LOG_FULL = 9,
  DETIO_NO_ANSWER = 10, /* the outcome does not answer what was asked */
  DETIO_NO_ROOM = 11,   /* the buffer is too small */
  DETIO_NOT_A_CALL = 12,
  DETIO_BAD_SETTINGS = 13,
  DETIO_NOT_A_LOG = 14,
  DETIO_END_OF_LOG = 15,
  DETIO_DIVERGED = 16,
  DETIO_OVER = 17
};

/* What a thread can ask, and which of the fields of detio_call each call has. */
enum detio_call_kind {
  DETIO_OPEN = 1, /* choice: access; flags; text: path */
  DETIO_CLOSE,    /* descriptor, as for all that follow but those with a path */
  DETIO_READ,     /* number: count */
  DETIO_WRITE,    /* text: bytes */
  DETIO_PREAD,    /* number: count; position */
  DETIO_PWRITE,   /* text: bytes; position */
  DETIO_LSEEK,    /* number: offset; choice: whence */
  DETIO_FTRUNCATE, /* number: size */
  DETIO_FSTAT,
  DETIO_DUP,
  DETIO_DUP_FROM, /* number: the least number */
  DETIO_DUP2,     /* number: the target */
  DETIO_GETFL,
  DETIO_SETFL, /* flags: append and nonblock */
  DETIO_LINK,  /* text: old path; second: new path */
  DETIO_UNLINK,
  DETIO_RENAME, /* text: old path; second: new path */
  DETIO_MKDIR,
  DETIO_RMDIR,
  DETIO_PIPE,
  DETIO_SOCKETPAIR,
  DETIO_SHUTDOWN,    /* choice: what is shut */
  DETIO_HOST_OPEN,   /* choice: access; flags; text: path */
  DETIO_TCP_LISTEN,  /* number: port */
  DETIO_TCP_CONNECT, /* number: port */
  DETIO_TCP_ACCEPT
};

enum detio_access { DETIO_READ_ONLY, DETIO_WRITE_ONLY, DETIO_READ_WRITE };
enum detio_whence { DETIO_SET, DETIO_CURRENT, DETIO_END };
enum detio_how { DETIO_SHUT_READ, DETIO_SHUT_WRITE, DETIO_SHUT_BOTH };
enum detio_flags {
  DETIO_CREATE = 1,
  DETIO_EXCLUSIVE = 2,
  DETIO_TRUNCATE = 4,
  DETIO_APPEND = 8,
  DETIO_NONBLOCK = 16
};

enum detio_phase {
  DETIO_WORKING = 1,
  DETIO_WANTS_TABLE,
  DETIO_WANTS_OBJECT,
  DETIO_GRANTED,
  DETIO_TO_OUTSIDE,
  DETIO_OUTSIDE,
  DETIO_RECORDED,
  DETIO_BLOCKED,
  DETIO_ENDED
};

/* The errors of this profile. They are not the numbers of any system. */
enum detio_error {
  DETIO_EBADF = 1,
  DETIO_EINVAL,
  DETIO_EOVERFLOW,
  DETIO_ESPIPE,
  DETIO_EFBIG,
  DETIO_EAGAIN,
  DETIO_EPIPE,
  DETIO_EINTR,
  DETIO_EIO,
  DETIO_ENOENT,
  DETIO_EEXIST,
  DETIO_ENOTDIR,
  DETIO_EISDIR,
  DETIO_ENOTEMPTY,
  DETIO_EPERM,
  DETIO_EACCES,
  DETIO_EMFILE,
  DETIO_ENFILE,
  DETIO_ENOSPC,
  DETIO_ENAMETOOLONG,
  DETIO_ENOTSOCK,
  DETIO_EBUSY,
  DETIO_ECONNREFUSED,
  DETIO_ECONNRESET,
  DETIO_EADDRINUSE,
  DETIO_ETIMEDOUT
};

enum detio_reply_kind {
  DETIO_COUNT = 1, /* count */
  DETIO_DATA,      /* count bytes in the buffer */
  DETIO_NUMBER,    /* first */
  DETIO_PAIR,      /* first and second */
  DETIO_STAT,      /* first: the kind of object, 1 to 6; count: length or port; links */
  DETIO_PLAIN,     /* it was done */
  DETIO_FAILURE    /* error */
};

enum detio_request_kind {
  DETIO_ASKS_OPEN = 1,
  DETIO_ASKS_READ,
  DETIO_ASKS_WRITE,
  DETIO_ASKS_SEEK,
  DETIO_ASKS_LISTEN,
  DETIO_ASKS_CONNECT,
  DETIO_ASKS_ACCEPT,
  DETIO_ASKS_SHUTDOWN,
  DETIO_ASKS_CLOSE
};

enum detio_cause {
  DETIO_STOP_MEMORY = 1,
  DETIO_STOP_CLOCK_FULL,
  DETIO_STOP_END_OF_LOG,
  DETIO_STOP_DIVERGED
};

enum detio_how_ended {
  DETIO_ALL_ENDED = 0,
  DETIO_SOME_RUN = 1,
  DETIO_FOR_MEMORY,
  DETIO_FOR_LOG_FULL,
  DETIO_FOR_CLOCK_FULL,
  DETIO_FOR_END_OF_LOG,
  DETIO_FOR_DIVERGED
};

typedef struct {
  void *at;
  bool live;
} detio;

typedef struct {
  size_t size;        /* sizeof(detio_settings): of less, what a later version adds is not said */
  size_t threads;     /* 1 to 16 */
  uint32_t patience;  /* for how many turns a call may be blocked: 1000 */
  uint32_t door_cost; /* what a call that goes outside costs: 100 */
  uint32_t version;   /* of the log: 2, or 1 */
  size_t room;        /* for how many bytes the log has room */
} detio_settings;

/* A call. Other bits of `flags` than those of detio_flags are refused, also where a call has no flags. */
typedef struct {
  uint32_t kind, choice, flags;
  int64_t descriptor, number, position;
} detio_call;

/* A reply, by its kind. */
typedef struct {
  uint32_t kind, error;
  uint64_t count;
  int64_t first, second;
  uint64_t links;
} detio_reply;

/* What a thread asks outside. */
typedef struct {
  uint32_t kind;
  bool waits;     /* the call may wait for its peer: EAGAIN is not its reply */
  uint64_t asked; /* the count of bytes, or the port */
  size_t length;  /* of the path or the bytes in the buffer */
  detio_call call;
} detio_outside;

/* What came from outside. */
typedef struct {
  uint32_t error; /* 0: it succeeded */
  uint64_t value; /* the count of bytes, the offset or the port */
  size_t length;  /* of the bytes of a read */
  uint64_t back;  /* the door that went out */
  uint64_t opened;
} detio_outcome;

/* How a run ended. */
typedef struct {
  uint32_t how;
  size_t thread; /* that a log ended for, or diverged for */
  size_t length; /* of the log */
} detio_run_end;

/* A run, or a replay of a log, in place of what was there, which stays where these are refused: so also at
 * DETIO_LOG_FULL, where `room` is too small for the head of a log. A log that is torn is replayed up to the tear. */
uint32_t detio_new(detio *, const detio_settings *);
uint32_t detio_open_log(detio *, const uint8_t *log, size_t length);
void detio_free(detio *);

/* The events of a thread, numbered from 0. */
uint32_t detio_ask(detio *, size_t thread, const detio_call *, const uint8_t *text, size_t text_length,
                   const uint8_t *second, size_t second_length);
uint32_t detio_work(detio *, size_t thread, uint64_t units);
uint32_t detio_end(detio *, size_t thread);
uint32_t detio_again(detio *, size_t thread);
uint32_t detio_answer(detio *, size_t thread, detio_reply *, uint8_t *data, size_t room);

/* Where a thread is, and whether it has the turn. */
uint32_t detio_phase(detio *, size_t thread, uint32_t *phase);
uint32_t detio_has_turn(detio *, size_t thread, bool *has);
/* That of a thread that has ended is the one at which it did. */
uint32_t detio_clock(detio *, size_t thread, uint64_t *clock);
/* Whether some thread has the turn, and which: once all have ended nobody has, and `thread` is left as it was. */
uint32_t detio_holder(detio *, bool *there, size_t *thread);
/* Whether a thread is about to go outside, and each call that was granted before its own and goes outside has its
 * record. A driver that waits for this before detio_begin_outside reaches the outside in the order of turns. */
uint32_t detio_may_go(detio *, size_t thread, bool *may);

/* The attempts of whoever has the turn. Where one is refused after others were made, DETIO_MORE is returned, and the
 * next call is refused. */
uint32_t detio_settle(detio *);

/* Outside. */
uint32_t detio_request(detio *, size_t thread, detio_outside *, uint8_t *data, size_t room);
uint32_t detio_begin_outside(detio *, size_t thread, bool *goes, uint64_t *door);
uint32_t detio_record(detio *, size_t thread, const detio_outcome *, const uint8_t *bytes, size_t length);

/* Of a replay: what the log has next for a thread that goes outside, and how many of its records did not come. */
uint32_t detio_next(detio *, size_t thread, detio_outcome *, uint8_t *data, size_t room);
uint32_t detio_unused(detio *, size_t thread, uint64_t *count);

/* The end of a run. DETIO_STOP_END_OF_LOG and DETIO_STOP_DIVERGED are for a thread, the others for none. Where
 * detio_finish is refused for memory, it may be called again. */
uint32_t detio_stop(detio *, uint32_t cause, size_t thread);
uint32_t detio_finish(detio *, detio_run_end *);

/* The log from a place on, also while the run goes on: then it is what the log has so far. `length` is the whole
 * log's, also where `room` ends before. */
uint32_t detio_log(detio *, size_t from, uint8_t *data, size_t room, size_t *length);

#ifdef __cplusplus
}
#endif

#endif
