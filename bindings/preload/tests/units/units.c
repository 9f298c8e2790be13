/* The parts of the library that need no run: digests, entries, what a log says of its program, and memory. */
#include "about.h"
#include "sha256.h"

#include <stdio.h>
#include <stdlib.h>
#include <string.h>

void *detio_heap_malloc(size_t), *detio_heap_calloc(size_t, size_t), *detio_heap_realloc(void *, size_t);
void detio_heap_free(void *);
extern size_t heap_used;

static int faults;
static void must(int line, const char *what, bool holds) {
  if (!holds) faults++, printf("units.c:%d: not so: %s\n", line, what);
}
#define MUST(what) must(__LINE__, #what, what)

/* The published digests of FIPS 180. */
static bool digests_to(const char *bytes, size_t times, size_t piece, const char *wanted) {
  sha256 sum;
  char text[65];
  sha256_begin(&sum);
  for (; times; times--) {
    for (size_t at = 0, length = strlen(bytes); at < length; at += piece)
      sha256_add(&sum, bytes + at, length - at < piece ? length - at : piece);
  }
  sha256_end(&sum, text);
  return !strcmp(text, wanted);
}
static void digests(void) {
  static const char million[] = "aaaaaaaaaaaaaaaaaaaaaaaaaaaaaaaaaaaaaaaaaaaaaaaaaa";
  static const char longer[] = "abcdbcdecdefdefgefghfghighijhijkijkljklmklmnlmnomnopnopq";
  MUST(digests_to("", 1, 1, "e3b0c44298fc1c149afbf4c8996fb92427ae41e4649b934ca495991b7852b855"));
  MUST(digests_to("abc", 1, 3, "ba7816bf8f01cfea414140de5dae2223b00361a396177a9cb410ff61f20015ad"));
  for (size_t piece = 1; piece <= 56; piece++)
    MUST(digests_to(longer, 1, piece, "248d6a61d20638b8e5c026930c3e6039a33ce45964ff2167f6ecedd419db06c1"));
  MUST(digests_to(million, 20000, 50, "cdc76e5c9914fb9281a1c7e284d73e67f1809a48a497200e046d39ccc7112cd0"));
}

/* Entries with exactly this room. */
static entries with_room(size_t room) {
  char *text = malloc(room ? room : 1);
  if (!text) exit(2);
  memset(text, 'x', room);
  return (entries){.text = text, .room = room};
}
static void lists(void) {
  entries e = with_room(20);
  size_t at = 0;
  add_entry(&e, "a", "1");      /* four bytes */
  add_entry(&e, "ab", "x=y=z"); /* nine */
  add_entry(&e, "a", "");       /* three */
  MUST(e.length == 16 && !e.full);
  const char *one = next_value(&e, "a", &at);
  MUST(one && !strcmp(one, "1") && at == 4);
  const char *two = next_value(&e, "a", &at);
  MUST(two && !*two && at == 16);
  MUST(!next_value(&e, "a", &at) && !first_value(&e, "b") && !first_value(&e, ""));
  MUST(!strcmp(first_value(&e, "ab"), "x=y=z"));
  add_entry(&e, "ke", "v"); /* five, and four are left */
  MUST(e.full && e.length == 16);
  add_entry(&e, "k", "v");
  MUST(e.length == 20 && !strcmp(first_value(&e, "k"), "v"));
  free(e.text);
}

/* A record of a read by this thread, of version 2, with these data: its length. */
static size_t record(uint8_t *at, int thread, int kind, const char *data, size_t length) {
  memset(at, 0, 27 + HEAD);
  at[0] = 'R';
  at[2] = (uint8_t)thread;
  at[15] = (uint8_t)kind;
  at[25] = (uint8_t)((HEAD + length) >> 8);
  at[26] = (uint8_t)(HEAD + length);
  memcpy(at + 27 + HEAD, data, length);
  return 27 + HEAD + length;
}
static size_t make_log(uint8_t *log, const char *said, size_t length) {
  size_t at = 16, piece;
  memset(log, 0, 16);
  memcpy(log, "DIOL\0\2", 6);
  log[7] = 16;
  at += record(log + at, 0, 1, "", 0); /* an opening */
  at += record(log + at, 1, 2, "other=thread", 13);
  do {
    piece = length < ABOUT_PIECE ? length : ABOUT_PIECE;
    at += record(log + at, 0, 2, said, piece);
    said += piece;
    length -= piece;
  } while (piece == ABOUT_PIECE);
  return at;
}
/* Of a log that is cut at this length, in memory that ends there. */
static bool says(const uint8_t *log, size_t length, size_t room, const char *wanted, size_t wanted_length) {
  uint8_t *cut = malloc(length ? length : 1);
  entries e = with_room(room);
  if (!cut) exit(2);
  memcpy(cut, log, length);
  bool there = about_in_log(cut, length, &e);
  bool same = there && e.length == wanted_length && !memcmp(e.text, wanted, wanted_length);
  MUST(there == same);
  free(cut);
  free(e.text);
  return there;
}
static void logs(void) {
  static uint8_t log[200000];
  static char said[ABOUT_PIECE * 2 + 2];
  size_t length = make_log(log, "mode=run\0log=x", 15);
  for (size_t at = 0; at < length; at++) MUST(!says(log, at, 100, "mode=run\0log=x", 15));
  MUST(says(log, length, 100, "mode=run\0log=x", 15));
  MUST(says(log, length, 15, "mode=run\0log=x", 15));
  MUST(!says(log, length, 14, "mode=run\0log=x", 15));
  MUST(!says(log, make_log(log, "mode=run", 8), 100, "", 0)); /* without its NUL */
  MUST(!says(log, make_log(log, "", 0), 100, "", 0));
  memset(said, 'a', sizeof said);
  said[sizeof said - 1] = 0;
  length = make_log(log, said, sizeof said);
  MUST(says(log, length, ABOUT_ROOM, said, sizeof said));
  MUST(!says(log, length - 1, ABOUT_ROOM, said, sizeof said));
  MUST(!says(log, length - 27 - HEAD - 2, ABOUT_ROOM, said, sizeof said));
  length = make_log(log, "a=b", 4);
  log[5] = 1;
  MUST(!says(log, length, 100, "a=b", 4));
}

static bool differ(const char *left, size_t length, const char *right, size_t other_length, const char **one,
                   const char **other) {
  static const char *const keys[] = {"argument", "variable", NULL};
  entries a = {.text = (char *)left, .length = length, .room = length};
  entries b = {.text = (char *)right, .length = other_length, .room = other_length};
  return first_difference(&a, &b, keys, one, other);
}
#define DIFFER(left, right) differ(left, sizeof left, right, sizeof right, &one, &other)
static void differences(void) {
  const char *one, *other;
  MUST(!DIFFER("argument=a\0variable=A=1\0variable=B=2", "argument=a\0variable=B=2\0variable=A=1"));
  MUST(!one && !other);
  MUST(!DIFFER("threads=1\0argument=a", "threads=2\0argument=a"));
  MUST(DIFFER("argument=a\0variable=A=1", "variable=A=1\0argument=b"));
  MUST(one && other && !strcmp(one, "argument=a") && !strcmp(other, "argument=b"));
  MUST(DIFFER("argument=a\0variable=A=1", "argument=a\0variable=A=2"));
  MUST(one && other && !strcmp(one, "variable=A=1") && !strcmp(other, "variable=A=2"));
  MUST(DIFFER("argument=a\0variable=A=1", "argument=a"));
  MUST(one && !other && !strcmp(one, "variable=A=1"));
  MUST(DIFFER("argument=a", "argument=a\0argument=b"));
  MUST(!one && other);
  MUST(DIFFER("argument=a\0argument=b", "argument=b\0argument=a"));
}

static bool all_are(const unsigned char *at, size_t count, int value) {
  for (size_t i = 0; i < count; i++)
    if (at[i] != value) return false;
  return true;
}
/* Blocks whose sizes are near powers of two, and then what was in each. */
static void blocks(void) {
  enum { POWERS = 16, NEAR = 40 };
  static unsigned char *at[POWERS * NEAR];
  static size_t sizes[POWERS * NEAR];
  size_t before = heap_used;
  for (int round = 0; round < 3; round++) {
    for (int i = 0; i < POWERS * NEAR; i++) {
      size_t size = ((size_t)1 << (i / NEAR + 2)) + (size_t)(i % NEAR);
      sizes[i] = size > 20 ? size - 20 : size;
      at[i] = detio_heap_malloc(sizes[i]);
      MUST(at[i] && (uintptr_t)at[i] % 16 == 0);
      memset(at[i], i % 251, sizes[i]);
    }
    for (int i = 0; i < POWERS * NEAR; i++) MUST(all_are(at[i], sizes[i], i % 251));
    for (int i = round; i < POWERS * NEAR + round; i++) detio_heap_free(at[i % (POWERS * NEAR)]);
    MUST(heap_used == before);
  }
}
static void memory(void) {
  unsigned char *one = detio_heap_malloc(100);
  memset(one, 7, 100);
  one = detio_heap_realloc(one, 5000);
  MUST(one && all_are(one, 100, 7));
  memset(one, 8, 5000);
  one = detio_heap_realloc(one, 50);
  MUST(one && all_are(one, 50, 8));
  detio_heap_free(one);
  unsigned char *two = detio_heap_malloc(5000);
  MUST(two == one); /* the block is free again */
  detio_heap_free(two);
  detio_heap_free(NULL);
  unsigned char *three = detio_heap_calloc(50, 100);
  MUST(three == one && all_are(three, 5000, 0));
  detio_heap_free(three);
  MUST(!detio_heap_calloc(SIZE_MAX / 2, 3) && !detio_heap_calloc(SIZE_MAX, SIZE_MAX));
  MUST(!detio_heap_malloc(SIZE_MAX) && !detio_heap_malloc(SIZE_MAX - 15) && !detio_heap_malloc((size_t)1 << 40));
  unsigned char *four = detio_heap_realloc(NULL, 10);
  MUST(four != NULL);
  MUST(!detio_heap_realloc(four, SIZE_MAX - 3));
  detio_heap_free(four);
}

int main(void) {
  digests();
  lists();
  logs();
  differences();
  blocks();
  memory();
  return faults != 0;
}
