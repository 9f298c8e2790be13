/* A test of detio.h in which one allocation after another is refused. Whichever it is, one call says DETIO_NO_MEMORY
 * and nothing else; made again it is done, and the log, the replies and the replay are those of a run with ample
 * memory. */
#include "detio.h"
#include "refusing.h"

#include <stdio.h>
#include <stdlib.h>
#include <string.h>

/* What the last call returned, and how many allocations there were before it. */
static uint32_t code;
static long before;

static void starts(void) {
  before = count;
  counting = true;
}

static bool was_refused(void) {
  counting = false;
  return before < place && place <= count;
}

static void says_so(void) { CHECK(code == DETIO_NO_MEMORY); }

/* What a call returns: where an allocation was refused in it, it says so, and is made again. */
#define CODE(call) (starts(), code = (call), was_refused() ? (says_so(), code = (call)) : code)

static const uint8_t none[1];

/* The calls of thread 0, each with what comes for it from outside, and with its reply and the bytes of that. */
static const detio_outcome opened = {.opened = 7}, came = {.value = 3, .length = 3, .back = 7}, closed;
static const struct {
  detio_call call;
  const char *text;
  const detio_outcome *came;
  const char *brings;
  uint32_t kind;
  uint64_t count;
  int64_t first;
  const char *bytes;
} calls[] = {
    {{.kind = DETIO_OPEN, .choice = DETIO_READ_WRITE, .flags = DETIO_CREATE}, "/a", NULL, "", DETIO_NUMBER, 0, 0, ""},
    {{.kind = DETIO_WRITE, .descriptor = 0}, "0123456789", NULL, "", DETIO_COUNT, 10, 0, ""},
    {{.kind = DETIO_PREAD, .descriptor = 0, .number = 10}, "", NULL, "", DETIO_DATA, 10, 0, "0123456789"},
    {{.kind = DETIO_MKDIR}, "/d", NULL, "", DETIO_PLAIN, 0, 0, ""},
    {{.kind = DETIO_PIPE}, "", NULL, "", DETIO_PAIR, 0, 1, ""},
    {{.kind = DETIO_WRITE, .descriptor = 2}, "xyz", NULL, "", DETIO_COUNT, 3, 0, ""},
    {{.kind = DETIO_HOST_OPEN, .choice = DETIO_READ_ONLY}, "h", &opened, "", DETIO_NUMBER, 0, 3, ""},
    {{.kind = DETIO_READ, .descriptor = 3, .number = 9}, "", &came, "abc", DETIO_DATA, 3, 0, "abc"},
    {{.kind = DETIO_CLOSE, .descriptor = 3}, "", &closed, "", DETIO_PLAIN, 0, 0, ""},
};

/* What a run leaves. */
typedef struct {
  uint8_t log[256];
  size_t length;
} left_by;

/* Thread 0 goes outside, and this comes for it, which in a replay the log has. */
static void goes_outside(detio *m, const detio_outcome *outcome, const char *bytes, bool replays) {
  detio_outside outside;
  detio_outcome next;
  bool goes;
  uint64_t door;
  uint8_t data[64];
  CHECK(CODE(detio_request(m, 0, &outside, data, sizeof data)) == DETIO_DONE);
  CHECK(CODE(detio_begin_outside(m, 0, &goes, &door)) == DETIO_DONE);
  if (replays) {
    CHECK(CODE(detio_next(m, 0, &next, data, sizeof data)) == DETIO_DONE && next.value == outcome->value);
    CHECK(next.length == strlen(bytes) && memcmp(data, bytes, next.length) == 0);
  }
  CHECK(CODE(detio_record(m, 0, outcome, (const uint8_t *)bytes, strlen(bytes))) == DETIO_DONE);
}

/* A run of these calls, or a replay. */
static void plays(detio *m, left_by *left, bool replays) {
  detio_run_end ended;
  detio_reply reply;
  uint8_t data[64];
  for (size_t i = 0; i < sizeof calls / sizeof *calls; i++) {
    const uint8_t *text = (const uint8_t *)calls[i].text;
    CHECK(CODE(detio_ask(m, 0, &calls[i].call, text, strlen(calls[i].text), none, 0)) == DETIO_DONE);
    CHECK(CODE(detio_settle(m)) == DETIO_DONE);
    if (calls[i].came) goes_outside(m, calls[i].came, calls[i].brings, replays);
    CHECK(CODE(detio_answer(m, 0, &reply, data, sizeof data)) == DETIO_DONE);
    CHECK(reply.kind == calls[i].kind && reply.count == calls[i].count && reply.first == calls[i].first);
    CHECK(memcmp(data, calls[i].bytes, strlen(calls[i].bytes)) == 0);
  }
  CHECK(CODE(detio_work(m, 0, 5)) == DETIO_DONE);
  CHECK(CODE(detio_end(m, 0)) == DETIO_DONE);
  CHECK(CODE(detio_finish(m, &ended)) == DETIO_DONE && ended.how == DETIO_ALL_ENDED);
  CHECK(CODE(detio_log(m, 0, left->log, sizeof left->log, &left->length)) == DETIO_DONE);
  CHECK(left->length <= sizeof left->log);
}

/* A run with so much room for its log, and then a replay of that, with one allocation refused: how many there were. */
static long run(size_t room, left_by *left) {
  detio_settings one = SETTINGS(1, 1000, 2, room);
  left_by again;
  uint64_t unused;
  detio m = {0};
  count = 0;
  CHECK(CODE(detio_new(&m, &one)) == DETIO_DONE);
  plays(&m, left, false);
  CHECK(CODE(detio_open_log(&m, left->log, left->length)) == DETIO_DONE);
  plays(&m, &again, true);
  CHECK(CODE(detio_unused(&m, 0, &unused)) == DETIO_DONE && unused == 0);
  CHECK(again.length == left->length && memcmp(again.log, left->log, left->length) == 0);
  detio_free(&m);
  return count;
}

int main(void) {
  left_by ample, scarce;
  long all = run(sizeof ample.log, &ample);
  for (place = 1; place <= all; place++) {
    /* the log has just the room that it takes */
    run(ample.length, &scarce);
    CHECK(scarce.length == ample.length && memcmp(scarce.log, ample.log, ample.length) == 0);
  }
  printf("%ld allocations refused, one a run\n", all);
  return 0;
}
