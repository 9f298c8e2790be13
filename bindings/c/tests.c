/* Tests of detio.h and of its driver: cc tests.c -I . -L ../out -ldetio -lpthread
 *
 *     tests [TIMES]    each test, and runs of 2 and 16 threads so many times (default 20): at 1 the replays of 16
 *                      threads are left out, for where each step is dear */
#include "checks.h"
#include "detio_threads.h"

#include <fcntl.h>
#include <limits.h>
#include <signal.h>
#include <stdio.h>
#include <stdlib.h>
#include <string.h>
#include <sys/stat.h>
#include <unistd.h>

static const uint8_t none[1];
static uint8_t data[32768];
static const detio_settings one = SETTINGS(1, 1000, 2, 4096);

static uint32_t ask(detio *m, size_t t, detio_call call, const char *text) {
  return detio_ask(m, t, &call, text ? (const uint8_t *)text : none, text ? strlen(text) : 0, none, 0);
}

static uint32_t phase(detio *m, size_t t) {
  uint32_t found = 0;
  CHECK(detio_phase(m, t, &found) == DETIO_DONE);
  return found;
}

static uint64_t clock_of(detio *m, size_t t) {
  uint64_t found = 0;
  CHECK(detio_clock(m, t, &found) == DETIO_DONE);
  return found;
}

static size_t holder(detio *m) {
  bool there = false;
  size_t found = SIZE_MAX;
  CHECK(detio_holder(m, &there, &found) == DETIO_DONE && there);
  return found;
}

static bool may_go(detio *m, size_t t) {
  bool found = false;
  CHECK(detio_may_go(m, t, &found) == DETIO_DONE);
  return found;
}

static detio_reply answered(detio *m) {
  detio_reply reply;
  CHECK(detio_settle(m) == DETIO_DONE);
  CHECK(detio_answer(m, 0, &reply, data, sizeof data) == DETIO_DONE);
  return reply;
}

/* Each call of a handle that has nothing. */
static void has_nothing(detio *m) {
  detio_reply reply;
  detio_outside outside;
  detio_outcome came = {0};
  detio_run_end ended;
  size_t length;
  bool is;
  uint64_t number;
  uint32_t found;
  CHECK(ask(m, 0, (detio_call){.kind = DETIO_PIPE}, NULL) == DETIO_NO_SESSION);
  CHECK(detio_work(m, 0, 1) == DETIO_NO_SESSION);
  CHECK(detio_end(m, 0) == DETIO_NO_SESSION);
  CHECK(detio_again(m, 0) == DETIO_NO_SESSION);
  CHECK(detio_answer(m, 0, &reply, data, sizeof data) == DETIO_NO_SESSION);
  CHECK(detio_phase(m, 0, &found) == DETIO_NO_SESSION);
  CHECK(detio_has_turn(m, 0, &is) == DETIO_NO_SESSION);
  CHECK(detio_clock(m, 0, &number) == DETIO_NO_SESSION);
  CHECK(detio_holder(m, &is, &length) == DETIO_NO_SESSION);
  CHECK(detio_may_go(m, 0, &is) == DETIO_NO_SESSION);
  CHECK(detio_settle(m) == DETIO_NO_SESSION);
  CHECK(detio_request(m, 0, &outside, data, sizeof data) == DETIO_NO_SESSION);
  CHECK(detio_begin_outside(m, 0, &is, &number) == DETIO_NO_SESSION);
  CHECK(detio_record(m, 0, &came, none, 0) == DETIO_NO_SESSION);
  CHECK(detio_next(m, 0, &came, data, sizeof data) == DETIO_NO_SESSION);
  CHECK(detio_unused(m, 0, &number) == DETIO_NO_SESSION);
  CHECK(detio_stop(m, DETIO_STOP_MEMORY, 0) == DETIO_NO_SESSION);
  CHECK(detio_finish(m, &ended) == DETIO_NO_SESSION);
  CHECK(detio_log(m, 0, data, sizeof data, &length) == DETIO_NO_SESSION);
  detio_free(m);
}

static void a_handle_with_nothing(void) {
  detio m = {0};
  has_nothing(&m);
  CHECK(detio_new(&m, &one) == DETIO_DONE);
  detio_free(&m);
  has_nothing(&m);
}

/* Each call for a thread that is not there, and for one that has no such event now. */
static void threads_that_are_not_there(void) {
  detio m = {0};
  detio_reply reply;
  detio_outside outside;
  detio_outcome came = {0};
  detio_run_end ended;
  bool is;
  uint64_t number;
  uint32_t found;
  CHECK(detio_new(&m, &one) == DETIO_DONE);
  for (size_t t = 1; t != 0; t = t == SIZE_MAX ? 0 : t == 16 ? SIZE_MAX : t * 2) {
    CHECK(ask(&m, t, (detio_call){.kind = DETIO_PIPE}, NULL) == DETIO_NO_THREAD);
    CHECK(detio_work(&m, t, 1) == DETIO_NO_THREAD);
    CHECK(detio_end(&m, t) == DETIO_NO_THREAD);
    CHECK(detio_again(&m, t) == DETIO_NO_THREAD);
    CHECK(detio_answer(&m, t, &reply, data, sizeof data) == DETIO_NO_THREAD);
    CHECK(detio_phase(&m, t, &found) == DETIO_NO_THREAD);
    CHECK(detio_has_turn(&m, t, &is) == DETIO_NO_THREAD);
    CHECK(detio_clock(&m, t, &number) == DETIO_NO_THREAD);
    CHECK(detio_may_go(&m, t, &is) == DETIO_NO_THREAD);
    CHECK(detio_request(&m, t, &outside, data, sizeof data) == DETIO_NO_THREAD);
    CHECK(detio_begin_outside(&m, t, &is, &number) == DETIO_NO_THREAD);
    CHECK(detio_record(&m, t, &came, none, 0) == DETIO_NO_THREAD);
    CHECK(detio_next(&m, t, &came, data, sizeof data) == DETIO_NO_THREAD);
    CHECK(detio_unused(&m, t, &number) == DETIO_NO_THREAD);
    CHECK(detio_stop(&m, DETIO_STOP_END_OF_LOG, t) == DETIO_NO_THREAD);
    CHECK(detio_stop(&m, DETIO_STOP_DIVERGED, t) == DETIO_NO_THREAD);
    CHECK(phase(&m, 0) == DETIO_WORKING);
  }
  CHECK(detio_again(&m, 0) == DETIO_WRONG_PHASE);
  CHECK(detio_answer(&m, 0, &reply, data, sizeof data) == DETIO_WRONG_PHASE);
  CHECK(detio_request(&m, 0, &outside, data, sizeof data) == DETIO_WRONG_PHASE);
  CHECK(detio_begin_outside(&m, 0, &is, &number) == DETIO_WRONG_PHASE);
  CHECK(detio_record(&m, 0, &came, none, 0) == DETIO_WRONG_PHASE);
  CHECK(detio_next(&m, 0, &came, data, sizeof data) == DETIO_WRONG_PHASE);
  CHECK(detio_has_turn(&m, 0, &is) == DETIO_DONE && is);
  CHECK(detio_unused(&m, 0, &number) == DETIO_DONE && number == 0);
  CHECK(detio_work(&m, 0, UINT64_MAX) == DETIO_CLOCK_FULL && phase(&m, 0) == DETIO_WORKING);
  CHECK(detio_end(&m, 0) == DETIO_DONE && detio_end(&m, 0) == DETIO_WRONG_PHASE);
  CHECK(detio_finish(&m, &ended) == DETIO_DONE && ended.how == DETIO_ALL_ENDED);
  CHECK(detio_work(&m, 0, 1) == DETIO_OVER && detio_phase(&m, 0, &found) == DETIO_OVER);
  CHECK(detio_stop(&m, DETIO_STOP_MEMORY, 0) == DETIO_OVER && detio_finish(&m, &ended) == DETIO_OVER);
  detio_free(&m);
}

/* Calls that there are not, by each of their words. */
static void calls_that_are_not_there(void) {
  detio m = {0};
  static const struct {
    uint32_t kind, least;
  } choices[] = {{DETIO_OPEN, 3}, {DETIO_HOST_OPEN, 3}, {DETIO_LSEEK, 3}, {DETIO_SHUTDOWN, 3}};
  CHECK(detio_new(&m, &one) == DETIO_DONE);
  CHECK(ask(&m, 0, (detio_call){.kind = 0}, NULL) == DETIO_NOT_A_CALL);
  for (uint64_t kind = 27; kind <= UINT32_MAX; kind = kind * 2 + 1) {
    CHECK(ask(&m, 0, (detio_call){.kind = (uint32_t)kind}, NULL) == DETIO_NOT_A_CALL);
  }
  for (size_t i = 0; i < sizeof choices / sizeof *choices; i++) {
    for (uint64_t choice = choices[i].least; choice <= UINT32_MAX; choice = choice * 2 + 1) {
      detio_call call = {.kind = choices[i].kind, .choice = (uint32_t)choice};
      CHECK(ask(&m, 0, call, "/a") == DETIO_NOT_A_CALL);
    }
  }
  for (uint32_t kind = 1; kind <= 26; kind++) {
    for (uint64_t flags = 32; flags <= UINT32_MAX; flags *= 2) {
      CHECK(ask(&m, 0, (detio_call){.kind = kind, .flags = (uint32_t)flags}, "/a") == DETIO_NOT_A_CALL);
    }
  }
  CHECK(phase(&m, 0) == DETIO_WORKING);
  detio_free(&m);
}

/* Operands that mean something, but nothing that can be: the call fails with an error, and the run goes on. */
static void calls_that_fail(void) {
  detio m = {0};
  static const struct {
    detio_call call;
    const char *text;
    uint32_t error;
  } calls[] = {
      {{.kind = DETIO_CLOSE, .descriptor = -1}, NULL, DETIO_EBADF},
      {{.kind = DETIO_CLOSE, .descriptor = INT64_MAX}, NULL, DETIO_EBADF},
      {{.kind = DETIO_READ, .descriptor = INT64_MIN, .number = 1}, NULL, DETIO_EBADF},
      {{.kind = DETIO_OPEN, .choice = DETIO_READ_ONLY}, "/a", DETIO_ENOENT},
      {{.kind = DETIO_OPEN, .choice = DETIO_READ_ONLY}, "", DETIO_ENOENT},
      {{.kind = DETIO_LSEEK, .descriptor = 0, .number = INT64_MIN, .choice = DETIO_END}, NULL, DETIO_EBADF},
      {{.kind = DETIO_DUP2, .descriptor = 7, .number = INT64_MIN}, NULL, DETIO_EBADF},
      {{.kind = DETIO_TCP_LISTEN, .number = INT64_MAX}, NULL, DETIO_EINVAL},
      {{.kind = DETIO_TCP_CONNECT, .number = -1}, NULL, DETIO_EINVAL},
      {{.kind = DETIO_UNLINK}, "/a", DETIO_ENOENT},
  };
  CHECK(detio_new(&m, &one) == DETIO_DONE);
  for (size_t i = 0; i < sizeof calls / sizeof *calls; i++) {
    CHECK(ask(&m, 0, calls[i].call, calls[i].text) == DETIO_DONE);
    detio_reply reply = answered(&m);
    if (reply.kind != DETIO_FAILURE || reply.error != calls[i].error)
      fprintf(stderr, "call %zu: kind %u, error %u\n", i, reply.kind, reply.error);
    CHECK(reply.kind == DETIO_FAILURE && reply.error == calls[i].error);
  }
  detio_free(&m);
}

/* Settings that cannot be, and bytes that are no log: the handle is as it was. */
static void begins_nothing(detio *m, void (*is_as_it_was)(detio *)) {
  static const struct {
    detio_settings settings;
    uint32_t code;
  } wrong[] = {
      {{.size = 39, .threads = 1, .patience = 1000, .door_cost = 100, .version = 2, .room = 4096}, DETIO_BAD_SETTINGS},
      {SETTINGS(17, 1000, 2, 4096), DETIO_BAD_SETTINGS},
      {SETTINGS(0, 1000, 2, 4096), DETIO_BAD_SETTINGS},
      {SETTINGS(SIZE_MAX, 1000, 2, 4096), DETIO_BAD_SETTINGS},
      {SETTINGS(1, 1000, 3, 4096), DETIO_BAD_SETTINGS},
      {SETTINGS(1, 1000, 65537, 4096), DETIO_BAD_SETTINGS},
      {SETTINGS(1, 0, 2, 4096), DETIO_BAD_SETTINGS},
      {SETTINGS(1, 1000001, 2, 4096), DETIO_BAD_SETTINGS},
      {{.size = 40, .threads = 1, .patience = 1000, .door_cost = UINT32_MAX, .version = 2, .room = 4096},
       DETIO_BAD_SETTINGS},
      {SETTINGS(1, 1000, 2, 15), DETIO_LOG_FULL},
      {SETTINGS(1, 1000, 2, SIZE_MAX), DETIO_NO_MEMORY},
  };
  for (size_t i = 0; i < sizeof wrong / sizeof *wrong; i++) {
    CHECK(detio_new(m, &wrong[i].settings) == wrong[i].code);
    is_as_it_was(m);
  }
  CHECK(detio_open_log(m, (const uint8_t *)"DIOX", 4) == DETIO_NOT_A_LOG);
  is_as_it_was(m);
  CHECK(detio_open_log(m, none, 0) == DETIO_NOT_A_LOG);
  is_as_it_was(m);
}

static void is_empty(detio *m) { CHECK(detio_settle(m) == DETIO_NO_SESSION); }

/* Thread 0 has asked a call, and nothing was attempted. */
static void has_asked(detio *m) { CHECK(phase(m, 0) == DETIO_WANTS_TABLE); }

static void what_cannot_be(void) {
  detio m = {0};
  begins_nothing(&m, is_empty);
  CHECK(detio_new(&m, &one) == DETIO_DONE);
  CHECK(ask(&m, 0, (detio_call){.kind = DETIO_PIPE}, NULL) == DETIO_DONE);
  begins_nothing(&m, has_asked);
  CHECK(answered(&m).kind == DETIO_PAIR);
  CHECK(detio_stop(&m, 0, 0) == DETIO_NOT_A_CALL && detio_stop(&m, 9, 0) == DETIO_NOT_A_CALL);
  CHECK(detio_stop(&m, DETIO_STOP_MEMORY, 0) == DETIO_DONE);
  CHECK(detio_stop(&m, DETIO_STOP_MEMORY, 0) == DETIO_STOPPED);
  CHECK(detio_settle(&m) == DETIO_STOPPED);
  CHECK(ask(&m, 0, (detio_call){.kind = DETIO_PIPE}, NULL) == DETIO_STOPPED);
  detio_free(&m);
}

/* A thread that has opened a file asks to read it, with so many units of its clock left before that: its file is
 * number 0. How many units it worked. */
static uint64_t wants_to_read(detio *m, uint64_t left, uint64_t worked) {
  CHECK(detio_new(m, &one) == DETIO_DONE);
  CHECK(ask(m, 0, (detio_call){.kind = DETIO_OPEN, .choice = DETIO_READ_WRITE, .flags = DETIO_CREATE}, "/a") == 0);
  CHECK(answered(m).first == 0);
  if (worked) CHECK(detio_work(m, 0, worked - left) == DETIO_DONE);
  for (uint64_t units = UINT64_C(1) << 63; !worked && units; units /= 2) {
    if (detio_work(m, 0, units) == DETIO_DONE) left += units;
  }
  CHECK(ask(m, 0, (detio_call){.kind = DETIO_READ, .number = 1}, NULL) == DETIO_DONE);
  return left;
}

/* Clocks, and who has the turn: of equal clocks the lesser number, and nobody once all have ended. */
static void clocks_and_turns(void) {
  detio m = {0};
  detio_settings two = one;
  detio_reply reply;
  detio_run_end ended;
  uint64_t clock;
  size_t thread = 7;
  bool is = true;
  two.threads = 2;
  CHECK(detio_new(&m, &two) == DETIO_DONE);
  CHECK(clock_of(&m, 0) == 1 && clock_of(&m, 1) == 1 && holder(&m) == 0);
  CHECK(detio_work(&m, 1, 20) == DETIO_DONE && clock_of(&m, 1) == 21 && holder(&m) == 0);
  /* A pipe: an attempt at the table, one at the object, and the answer. */
  CHECK(ask(&m, 0, (detio_call){.kind = DETIO_PIPE}, NULL) == DETIO_DONE && clock_of(&m, 0) == 1);
  CHECK(detio_settle(&m) == DETIO_DONE && phase(&m, 0) == DETIO_GRANTED && clock_of(&m, 0) == 4);
  CHECK(detio_answer(&m, 0, &reply, data, sizeof data) == DETIO_DONE && clock_of(&m, 0) == 5);
  CHECK(detio_work(&m, 0, 16) == DETIO_DONE && clock_of(&m, 0) == 21 && holder(&m) == 0);
  CHECK(detio_work(&m, 0, 1) == DETIO_DONE && clock_of(&m, 0) == 22 && holder(&m) == 1);
  CHECK(detio_end(&m, 1) == DETIO_DONE && clock_of(&m, 1) == 21 && holder(&m) == 0);
  /* The greatest clock is 2^62. */
  CHECK(detio_work(&m, 0, (UINT64_C(1) << 62) - 21) == DETIO_CLOCK_FULL && clock_of(&m, 0) == 22);
  CHECK(detio_work(&m, 0, (UINT64_C(1) << 62) - 22) == DETIO_DONE && clock_of(&m, 0) == UINT64_C(1) << 62);
  CHECK(!may_go(&m, 0) && !may_go(&m, 1) && holder(&m) == 0);
  CHECK(detio_end(&m, 0) == DETIO_DONE && clock_of(&m, 0) == UINT64_C(1) << 62);
  CHECK(detio_holder(&m, &is, &thread) == DETIO_DONE && !is && thread == 7);
  CHECK(detio_finish(&m, &ended) == DETIO_DONE && ended.how == DETIO_ALL_ENDED);
  CHECK(detio_clock(&m, 0, &clock) == DETIO_OVER && detio_holder(&m, &is, &thread) == DETIO_OVER);
  CHECK(detio_may_go(&m, 0, &is) == DETIO_OVER);
  detio_free(&m);
}

/* Attempts that are refused, since a clock is full: where others were made before in the same call, there may be
 * more, and only a call that made none is refused. */
static void a_clock_is_full(void) {
  detio m = {0};
  int refused_later = 0;
  uint64_t most = wants_to_read(&m, 0, 0);
  for (uint64_t left = 0; left < 6; left++) {
    uint32_t code, before;
    int calls = 0;
    wants_to_read(&m, left, most);
    do {
      before = phase(&m, 0);
      code = detio_settle(&m);
      CHECK(++calls < 10);
    } while (code == DETIO_MORE);
    CHECK(code == DETIO_DONE || code == DETIO_CLOCK_FULL);
    CHECK(code == DETIO_DONE || phase(&m, 0) == before);
    refused_later += code == DETIO_CLOCK_FULL && before != DETIO_WANTS_TABLE;
  }
  CHECK(refused_later);
  detio_free(&m);
}

static void small_buffers_lose_nothing(void) {
  detio m = {0};
  detio_reply reply;
  CHECK(detio_new(&m, &one) == DETIO_DONE);
  CHECK(ask(&m, 0, (detio_call){.kind = DETIO_OPEN, .choice = DETIO_READ_WRITE, .flags = DETIO_CREATE}, "/a") == 0);
  CHECK(answered(&m).first == 0);
  CHECK(ask(&m, 0, (detio_call){.kind = DETIO_WRITE}, "hello") == 0);
  CHECK(answered(&m).count == 5);
  CHECK(ask(&m, 0, (detio_call){.kind = DETIO_PREAD, .number = 9}, NULL) == 0);
  CHECK(detio_settle(&m) == DETIO_DONE);
  CHECK(detio_answer(&m, 0, &reply, data, 4) == DETIO_NO_ROOM);
  memset(data, 7, sizeof data);
  CHECK(detio_answer(&m, 0, &reply, data, sizeof data) == DETIO_DONE);
  CHECK(reply.kind == DETIO_DATA && reply.count == 5 && !memcmp(data, "hello", 5));
  for (size_t i = 5; i < sizeof data; i++) CHECK(data[i] == 7);
  detio_free(&m);
}

/* A read of a host file by hand: where the buffer is too small for what came, the next one has it all. */
static void small_buffers_lose_nothing_from_outside(void) {
  detio m = {0};
  detio_reply reply;
  detio_outcome came = {.opened = 7};
  bool goes;
  uint64_t door;
  CHECK(detio_new(&m, &one) == DETIO_DONE);
  CHECK(ask(&m, 0, (detio_call){.kind = DETIO_HOST_OPEN, .choice = DETIO_READ_ONLY}, "in") == DETIO_DONE);
  CHECK(detio_settle(&m) == DETIO_DONE && detio_begin_outside(&m, 0, &goes, &door) == DETIO_DONE && !goes);
  CHECK(detio_record(&m, 0, &came, none, 0) == DETIO_DONE && answered(&m).first == 0);
  CHECK(ask(&m, 0, (detio_call){.kind = DETIO_READ, .number = 9}, NULL) == DETIO_DONE);
  CHECK(detio_settle(&m) == DETIO_DONE && detio_begin_outside(&m, 0, &goes, &door) == DETIO_DONE && goes);
  came = (detio_outcome){.value = 5, .length = 5, .back = door};
  CHECK(detio_record(&m, 0, &came, (const uint8_t *)"hello", 5) == DETIO_DONE);
  for (size_t room = 0; room < 5; room++) {
    CHECK(detio_answer(&m, 0, &reply, data, room) == DETIO_NO_ROOM && phase(&m, 0) == DETIO_RECORDED);
  }
  memset(data, 0, 9);
  CHECK(detio_answer(&m, 0, &reply, data, 5) == DETIO_DONE);
  CHECK(reply.kind == DETIO_DATA && reply.count == 5 && !memcmp(data, "hello", 5));
  detio_free(&m);
}

/* A thread asks a call that goes outside, and is granted it at this clock. */
static void goes_next(detio *m, size_t t, detio_call call, const char *text, uint64_t clock) {
  CHECK(ask(m, t, call, text) == DETIO_DONE && !may_go(m, t));
  CHECK(detio_settle(m) == DETIO_DONE && phase(m, t) == DETIO_TO_OUTSIDE && clock_of(m, t) == clock);
}

/* What came for it, and its reply, after which it is at this clock. */
static void comes_back(detio *m, size_t t, detio_outcome came, const char *bytes, uint64_t clock) {
  detio_reply reply;
  CHECK(detio_record(m, t, &came, (const uint8_t *)bytes, strlen(bytes)) == DETIO_DONE && !may_go(m, t));
  CHECK(detio_answer(m, t, &reply, data, sizeof data) == DETIO_DONE && clock_of(m, t) == clock);
}

/* Two threads that go outside in the order of turns: the second waits for the record of the first. */
static void outside_in_turn(void) {
  static const detio_call open = {.kind = DETIO_HOST_OPEN, .choice = DETIO_READ_ONLY};
  detio m = {0};
  detio_settings two = one;
  bool goes;
  uint64_t door;
  two.threads = 2;
  /* Each opens a file: two attempts, the way outside at 100, and the answer with two locks. */
  CHECK(detio_new(&m, &two) == DETIO_DONE && detio_work(&m, 1, 105) == DETIO_DONE);
  for (size_t t = 0; t < 2; t++) {
    goes_next(&m, t, open, "in", t ? 108 : 3);
    CHECK(holder(&m) == t && may_go(&m, t));
    CHECK(detio_begin_outside(&m, t, &goes, &door) == DETIO_DONE && !goes && !may_go(&m, t));
    CHECK(clock_of(&m, t) == (t ? 208 : 103));
    comes_back(&m, t, (detio_outcome){.opened = 7 + t}, "", t ? 210 : 105);
    CHECK(detio_work(&m, t, t ? 3 : 105) == DETIO_DONE);
  }
  /* Thread 0 is at 210, and thread 1 at 213. A read frees the table at its third unit, and holds one lock. */
  goes_next(&m, 0, (detio_call){.kind = DETIO_READ, .descriptor = 0, .number = 9}, NULL, 213);
  CHECK(holder(&m) == 0 && may_go(&m, 0));
  CHECK(detio_begin_outside(&m, 0, &goes, &door) == DETIO_DONE && goes && door == 7 && clock_of(&m, 0) == 313);
  goes_next(&m, 1, (detio_call){.kind = DETIO_READ, .descriptor = 1, .number = 9}, NULL, 216);
  CHECK(holder(&m) == 1 && !may_go(&m, 1) && !may_go(&m, 0));
  detio_outcome came = {.value = 5, .length = 5, .back = 7};
  CHECK(detio_record(&m, 0, &came, (const uint8_t *)"hello", 5) == DETIO_DONE && phase(&m, 0) == DETIO_RECORDED);
  CHECK(may_go(&m, 1) && !may_go(&m, 0) && clock_of(&m, 0) == 313);
  CHECK(detio_begin_outside(&m, 1, &goes, &door) == DETIO_DONE && goes && door == 8 && clock_of(&m, 1) == 316);
  comes_back(&m, 1, (detio_outcome){.value = 3, .length = 3, .back = 8}, "tea", 317);
  CHECK(answered(&m).count == 5 && clock_of(&m, 0) == 314 && holder(&m) == 0);
  detio_free(&m);
}

/* One call outside by hand: a small buffer for the path, an outcome that does not fit, and the log in pieces. */
static void outside_by_hand(void) {
  detio m = {0};
  detio_outside asked;
  detio_run_end ended;
  detio_outcome came = {.value = 1};
  bool goes = true;
  uint64_t door;
  size_t length;
  CHECK(detio_new(&m, &one) == DETIO_DONE);
  CHECK(ask(&m, 0, (detio_call){.kind = DETIO_HOST_OPEN, .choice = DETIO_WRITE_ONLY, .flags = DETIO_APPEND}, "out") ==
        0);
  CHECK(detio_settle(&m) == DETIO_DONE && phase(&m, 0) == DETIO_TO_OUTSIDE);
  CHECK(detio_request(&m, 0, &asked, data, 2) == DETIO_NO_ROOM);
  CHECK(detio_request(&m, 0, &asked, data, 3) == DETIO_DONE);
  CHECK(asked.kind == DETIO_ASKS_OPEN && asked.length == 3 && !memcmp(data, "out", 3));
  CHECK(asked.call.kind == DETIO_HOST_OPEN && asked.call.choice == DETIO_WRITE_ONLY &&
        asked.call.flags == DETIO_APPEND);
  CHECK(detio_record(&m, 0, &came, none, 0) == DETIO_WRONG_PHASE);
  CHECK(detio_begin_outside(&m, 0, &goes, &door) == DETIO_DONE && !goes);
  CHECK(detio_record(&m, 0, &came, none, 0) == DETIO_NO_ANSWER);
  for (uint64_t error = DETIO_ETIMEDOUT + 1; error <= UINT32_MAX; error = error * 2 + 1) {
    came.error = (uint32_t)error;
    CHECK(detio_record(&m, 0, &came, none, 0) == DETIO_NO_ANSWER && phase(&m, 0) == DETIO_OUTSIDE);
  }
  came.error = 257;
  CHECK(detio_record(&m, 0, &came, none, 0) == DETIO_NO_ANSWER && phase(&m, 0) == DETIO_OUTSIDE);
  came.error = 0;
  came.value = 0;
  came.opened = 7;
  CHECK(detio_record(&m, 0, &came, none, 0) == DETIO_DONE);
  CHECK(answered(&m).first == 0);
  CHECK(ask(&m, 0, (detio_call){.kind = DETIO_CLOSE}, NULL) == 0);
  CHECK(detio_settle(&m) == DETIO_DONE);
  CHECK(detio_begin_outside(&m, 0, &goes, &door) == DETIO_DONE && goes && door == 7);
  came.error = DETIO_EIO;
  CHECK(detio_record(&m, 0, &came, none, 0) == DETIO_DONE);
  CHECK(answered(&m).error == DETIO_EIO);
  /* The log so far has its header and two records, and no end. */
  CHECK(detio_log(&m, 0, data, 16, &length) == DETIO_DONE && length == 16 + 2 * 27);
  CHECK(!memcmp(data, "DIOL\0\2\0\1", 8));
  size_t so_far = length;
  CHECK(detio_end(&m, 0) == DETIO_DONE && detio_finish(&m, &ended) == DETIO_DONE);
  CHECK(ended.length == so_far + 5);
  CHECK(ended.how == DETIO_ALL_ENDED && detio_finish(&m, &ended) == DETIO_OVER);
  static uint8_t log[4096];
  for (size_t at = 0; at < ended.length; at += 16) {
    CHECK(detio_log(&m, at, log + at, 16, &length) == DETIO_DONE && length == ended.length);
  }
  CHECK(!memcmp(log, "DIOL\0\2\0\1", 8) && log[length - 5] == 'E' && log[length - 1] == 2);
  CHECK(detio_log(&m, 99999, data, 16, &length) == DETIO_DONE);
  CHECK(detio_settle(&m) == DETIO_OVER);
  /* The same log, replayed by hand. */
  CHECK(detio_open_log(&m, log, length) == DETIO_DONE);
  uint64_t unused;
  CHECK(detio_unused(&m, 0, &unused) == DETIO_DONE && unused == 2);
  CHECK(detio_next(&m, 0, &came, data, sizeof data) == DETIO_WRONG_PHASE);
  CHECK(ask(&m, 0, (detio_call){.kind = DETIO_TCP_LISTEN}, NULL) == 0 && detio_settle(&m) == DETIO_DONE);
  CHECK(detio_next(&m, 0, &came, data, sizeof data) == DETIO_DIVERGED);
  CHECK(detio_begin_outside(&m, 0, &goes, &door) == DETIO_DONE);
  CHECK(detio_next(&m, 0, &came, data, sizeof data) == DETIO_DIVERGED);
  CHECK(detio_stop(&m, DETIO_STOP_DIVERGED, 0) == DETIO_DONE);
  CHECK(detio_finish(&m, &ended) == DETIO_DONE && ended.how == DETIO_FOR_DIVERGED);
  detio_free(&m);
}

/* ## The driver */

typedef struct {
  detio_run *run;
  size_t thread;
  int rounds;
  uint64_t seen[64];
} worker;

static void *counts(void *given) {
  worker *w = given;
  detio_reply reply;
  char text[8];
  detio_call open = {.kind = DETIO_OPEN, .choice = DETIO_READ_WRITE, .flags = DETIO_CREATE | DETIO_APPEND};
  CHECK(detio_thread_call(w->run, w->thread, &open, "/f", 2, NULL, 0, &reply, NULL, 0) == DETIO_DONE);
  int64_t at = reply.first;
  for (int i = 0; i < w->rounds; i++) {
    detio_call write = {.kind = DETIO_WRITE, .descriptor = at}, stat = {.kind = DETIO_FSTAT, .descriptor = at};
    snprintf(text, sizeof text, "%zu", w->thread % 10);
    CHECK(detio_thread_call(w->run, w->thread, &write, text, 1, NULL, 0, &reply, NULL, 0) == DETIO_DONE);
    CHECK(reply.kind == DETIO_COUNT && reply.count == 1);
    CHECK(detio_thread_call(w->run, w->thread, &stat, NULL, 0, NULL, 0, &reply, NULL, 0) == DETIO_DONE);
    w->seen[i] = reply.count;
    CHECK(detio_thread_work(w->run, w->thread, 1 + w->thread % 3) == DETIO_DONE);
  }
  CHECK(detio_thread_end(w->run, w->thread) == DETIO_DONE);
  return NULL;
}

static void threads_see_the_same(size_t threads, int rounds, int times) {
  static worker first[16], workers[16];
  for (int played = 0; played < times; played++) {
    detio_run run;
    detio_settings settings = one;
    pthread_t started[16];
    detio_run_end ended;
    settings.threads = threads;
    CHECK(detio_run_begin(&run, &settings, 10) == DETIO_DONE);
    for (size_t t = 0; t < threads; t++) {
      workers[t] = (worker){.run = &run, .thread = t, .rounds = rounds};
      CHECK(pthread_create(&started[t], NULL, counts, &workers[t]) == 0);
    }
    for (size_t t = 0; t < threads; t++) CHECK(pthread_join(started[t], NULL) == 0);
    CHECK(detio_run_finish(&run, &ended) == DETIO_DONE && ended.how == DETIO_ALL_ENDED);
    detio_run_free(&run);
    for (size_t t = 0; t < threads; t++) {
      if (!played) first[t] = workers[t];
      CHECK(!memcmp(first[t].seen, workers[t].seen, sizeof workers[t].seen));
    }
  }
}

/* ## Replays: by another schedule of the system, and of logs that are torn at each place */

enum { LINES = 6 };

typedef struct {
  detio_run *run;
  size_t thread;
  int steps; /* how many calls had a reply */
  uint32_t code;
  int64_t seen[3 * LINES + 2];
} writer;

/* A thread writes lines to a file of its own at the host, reads them again, and now and then waits for the others. */
static void *writes(void *given) {
  writer *w = given;
  char path[64], line[16];
  uint8_t got[16];
  detio_reply reply;
  int64_t at = 0;
  snprintf(path, sizeof path, "tests-%zu.txt", w->thread);
  for (int step = 0; step < 3 * LINES + 2 && w->code == DETIO_DONE; step++) {
    detio_call call = {.descriptor = at, .number = sizeof got};
    const char *text = NULL;
    if (step == 0) {
      call = (detio_call){.kind = DETIO_HOST_OPEN, .choice = DETIO_READ_WRITE, .flags = DETIO_CREATE | DETIO_TRUNCATE};
      text = path;
    } else if (step == 3 * LINES + 1) {
      call.kind = DETIO_CLOSE;
    } else if (step % 3 == 1) {
      call.kind = DETIO_WRITE;
      snprintf(line, sizeof line, "%zu:%d\n", w->thread, step);
      text = line;
    } else if (step % 3 == 2) {
      call = (detio_call){.kind = DETIO_LSEEK, .descriptor = at, .choice = DETIO_SET};
    } else {
      call.kind = DETIO_READ;
    }
    w->code = detio_thread_call(w->run, w->thread, &call, text, text ? strlen(text) : 0, NULL, 0, &reply, got,
                                sizeof got);
    if (w->code != DETIO_DONE) break;
    if (step == 0) at = reply.first;
    w->seen[step] = reply.kind == DETIO_COUNT || reply.kind == DETIO_DATA ? (int64_t)reply.count : reply.first;
    w->steps = step + 1;
  }
  detio_thread_end(w->run, w->thread);
  return NULL;
}

static void play_writers(detio_run *run, writer *writers, size_t threads, detio_run_end *ended) {
  pthread_t started[16];
  for (size_t t = 0; t < threads; t++) {
    writers[t] = (writer){.run = run, .thread = t};
    CHECK(pthread_create(&started[t], NULL, writes, &writers[t]) == 0);
  }
  for (size_t t = 0; t < threads; t++) CHECK(pthread_join(started[t], NULL) == 0);
  CHECK(detio_run_finish(run, ended) == DETIO_DONE);
}

static void logs_are_replayed(size_t threads) {
  static writer recorded[16], replayed[16], again[16];
  static uint8_t log[65536];
  detio_run run;
  detio_settings settings = one;
  detio_run_end ended;
  size_t length, now;
  char path[64];
  settings.threads = threads;
  settings.room = sizeof log;
  CHECK(detio_run_begin(&run, &settings, 10) == DETIO_DONE);
  play_writers(&run, recorded, threads, &ended);
  CHECK(ended.how == DETIO_ALL_ENDED);
  CHECK(detio_run_log(&run, 0, log, sizeof log, &length) == DETIO_DONE && length == ended.length);
  detio_run_free(&run);
  for (size_t t = 0; t < threads; t++) {
    snprintf(path, sizeof path, "tests-%zu.txt", t);
    CHECK(remove(path) == 0);
  }
  /* The whole log gives each thread what it saw, and makes no file. */
  for (int times = 0; times < 10; times++) {
    CHECK(detio_run_replay(&run, log, length) == DETIO_DONE);
    play_writers(&run, replayed, threads, &ended);
    CHECK(ended.how == DETIO_ALL_ENDED && ended.length == length);
    detio_run_free(&run);
    for (size_t t = 0; t < threads; t++) {
      CHECK(recorded[t].steps == replayed[t].steps);
      CHECK(!memcmp(recorded[t].seen, replayed[t].seen, sizeof replayed[t].seen));
      snprintf(path, sizeof path, "tests-%zu.txt", t);
      CHECK(remove(path) != 0);
    }
  }
  /* Of a log that is torn each thread sees a beginning, and the same one each time. */
  for (now = 16; now < length; now += threads > 2 ? 397 : 7) {
    for (int times = 0; times < 2; times++) {
      CHECK(detio_run_replay(&run, log, now) == DETIO_DONE);
      play_writers(&run, times ? again : replayed, threads, &ended);
      CHECK(ended.how == DETIO_FOR_END_OF_LOG || (ended.how == DETIO_ALL_ENDED && now >= length - 5));
      detio_run_free(&run);
    }
    for (size_t t = 0; t < threads; t++) {
      CHECK(replayed[t].steps == again[t].steps && replayed[t].steps <= recorded[t].steps);
      for (int step = 0; step < replayed[t].steps; step++) {
        CHECK(replayed[t].seen[step] == recorded[t].seen[step] && again[t].seen[step] == recorded[t].seen[step]);
      }
    }
  }
}

static bool is_not_done(uint32_t code) { return code == DETIO_MORE || code == DETIO_MOVED; }

/* Two threads of a run in one thread of the program: a reader that waits, and a writer. */
static void one_thread_plays_two(void) {
  detio_run run;
  detio_settings settings = one;
  detio_run_end ended;
  detio_reply reply;
  detio_call pipe = {.kind = DETIO_PIPE}, read = {.kind = DETIO_READ, .descriptor = 0, .number = 9},
             write = {.kind = DETIO_WRITE, .descriptor = 1};
  settings.threads = 2;
  CHECK(detio_run_begin(&run, &settings, 10) == DETIO_DONE);
  CHECK(detio_thread_work(&run, 1, 20) == DETIO_DONE);
  CHECK(detio_thread_start(&run, 0, &pipe, NULL, 0, NULL, 0, &reply, NULL, 0) == DETIO_DONE);
  CHECK(detio_thread_start(&run, 0, &read, NULL, 0, NULL, 0, &reply, data, sizeof data) == DETIO_MOVED);
  CHECK(detio_thread_try(&run, 0, &reply, data, sizeof data) == DETIO_MORE);
  uint32_t code = detio_thread_start(&run, 1, &write, "ping", 4, NULL, 0, &reply, NULL, 0);
  for (int tries = 0; is_not_done(code) && tries < 1000; tries++) {
    CHECK(is_not_done(detio_thread_try(&run, 0, &reply, data, sizeof data)));
    code = detio_thread_try(&run, 1, &reply, NULL, 0);
  }
  CHECK(code == DETIO_DONE && reply.kind == DETIO_COUNT && reply.count == 4);
  CHECK(detio_thread_end(&run, 1) == DETIO_DONE);
  CHECK(detio_thread_try(&run, 0, &reply, data, sizeof data) == DETIO_DONE);
  CHECK(reply.kind == DETIO_DATA && reply.count == 4 && !memcmp(data, "ping", 4));
  CHECK(detio_thread_end(&run, 0) == DETIO_DONE);
  CHECK(detio_thread_end(&run, 1) == DETIO_WRONG_PHASE);
  CHECK(detio_run_finish(&run, &ended) == DETIO_DONE && ended.how == DETIO_ALL_ENDED);
  detio_run_free(&run);
}

/* Waits that are too long: 2^31 and more would have no bound. */
static void waits_have_a_bound(void) {
  static const unsigned long_waits[] = {60001, INT_MAX, (unsigned)INT_MAX + 1, UINT_MAX};
  detio_run run;
  for (size_t i = 0; i < sizeof long_waits / sizeof *long_waits; i++) {
    CHECK(detio_run_begin(&run, &one, long_waits[i]) == DETIO_BAD_SETTINGS);
  }
  CHECK(detio_run_begin(&run, &one, 60000) == DETIO_DONE);
  detio_run_free(&run);
}

/* A call of thread 0 with a path or bytes, if it has some. */
static uint32_t makes(detio_run *run, detio_call call, const char *text, detio_reply *reply, size_t room) {
  return detio_thread_call(run, 0, &call, text, text ? strlen(text) : 0, NULL, 0, reply, data, room);
}

/* A read of a host file with a buffer that is too small, and the same call with a greater one. */
static void a_read_is_resumed(void) {
  static const char path[] = "tests-small.txt";
  detio_run run;
  detio_reply reply;
  FILE *file = fopen(path, "w");
  CHECK(file && fputs("hello", file) >= 0 && fclose(file) == 0);
  CHECK(detio_run_begin(&run, &one, 10) == DETIO_DONE);
  CHECK(makes(&run, (detio_call){.kind = DETIO_HOST_OPEN, .choice = DETIO_READ_ONLY}, path, &reply, 0) == DETIO_DONE);
  CHECK(makes(&run, (detio_call){.kind = DETIO_READ, .number = 9}, NULL, &reply, 2) == DETIO_NO_ROOM);
  CHECK(detio_thread_resume(&run, 0, &reply, data, 4) == DETIO_NO_ROOM);
  CHECK(detio_thread_resume(&run, 0, &reply, NULL, 0) == DETIO_NO_ROOM);
  memset(data, 0, 9);
  CHECK(detio_thread_resume(&run, 0, &reply, data, 5) == DETIO_DONE);
  CHECK(reply.kind == DETIO_DATA && reply.count == 5 && !memcmp(data, "hello", 5));
  CHECK(detio_thread_resume(&run, 0, &reply, data, 5) == DETIO_WRONG_PHASE);
  CHECK(detio_thread_end(&run, 0) == DETIO_DONE);
  detio_run_free(&run);
  CHECK(remove(path) == 0);
}

/* A write to a FIFO that nobody reads fails with EPIPE, and raises no signal, now or later. */
static void a_pipe_of_the_host_breaks(void) {
  static const char path[] = "tests-fifo";
  detio_run run;
  detio_reply reply;
  sigset_t there;
  CHECK(mkfifo(path, 0600) == 0);
  int reader = open(path, O_RDONLY | O_NONBLOCK);
  CHECK(reader >= 0);
  CHECK(detio_run_begin(&run, &one, 10) == DETIO_DONE);
  CHECK(makes(&run, (detio_call){.kind = DETIO_HOST_OPEN, .choice = DETIO_WRITE_ONLY}, path, &reply, 0) == DETIO_DONE);
  CHECK(reply.kind == DETIO_NUMBER && close(reader) == 0);
  CHECK(makes(&run, (detio_call){.kind = DETIO_WRITE}, "x", &reply, 0) == DETIO_DONE);
  CHECK(reply.kind == DETIO_FAILURE && reply.error == DETIO_EPIPE);
  CHECK(sigpending(&there) == 0 && !sigismember(&there, SIGPIPE));
  CHECK(detio_thread_end(&run, 0) == DETIO_DONE);
  detio_run_free(&run);
  CHECK(remove(path) == 0);
}

int main(int argc, char **argv) {
  int times = argc > 1 ? atoi(argv[1]) : 20;
  a_handle_with_nothing();
  threads_that_are_not_there();
  calls_that_are_not_there();
  calls_that_fail();
  what_cannot_be();
  clocks_and_turns();
  a_clock_is_full();
  small_buffers_lose_nothing();
  small_buffers_lose_nothing_from_outside();
  outside_in_turn();
  outside_by_hand();
  one_thread_plays_two();
  waits_have_a_bound();
  a_read_is_resumed();
  a_pipe_of_the_host_breaks();
  logs_are_replayed(1);
  logs_are_replayed(2);
  if (times > 1) logs_are_replayed(16);
  threads_see_the_same(1, 50, 20);
  threads_see_the_same(2, 20, times);
  threads_see_the_same(16, 4, times);
  printf("all as it should be: %d runs of 2 and of 16 threads\n", times);
  return 0;
}
