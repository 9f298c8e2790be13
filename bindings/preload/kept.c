/* What is open as one program goes on as another: it is handed over in entries, and made anew in the next program's
 * table, at the same numbers. */
#define _GNU_SOURCE
#include "preload.h"

#include "about.h"

#include <fcntl.h>
#include <stdio.h>
#include <stdlib.h>
#include <string.h>
#include <sys/syscall.h>

/* A number: what it refers to, and the least number that refers to the same; of an end of a pipe or pair the number of
 * the other end, or -1. */
typedef struct { int fd, first, kind, real, flags, waits, directory, peer, both; } kept;

static bool stays_open(int fd) { return opened_at(fd)->kind != NONE && !control(fd, F_GETFD, 0); }
static int first_of(const opened_file *f) {
  for (int fd = 0; fd < ORACLE; fd++)
    if (opened_at(fd) == f && stays_open(fd)) return fd;
  return -1;
}
/* The number of the other end of a pipe or pair. */
static int peer_of(const opened_file *f) {
  for (int fd = 0; fd < ORACLE; fd++) {
    const opened_file *g = opened_at(fd);
    if (g != f && stays_open(fd) && ((f->in && g->out == f->in) || (f->out && g->in == f->out))) return first_of(g);
  }
  return -1;
}

/* What is in a pipe or pair on its way to this end. */
static void add_bytes(entries *to, int fd) {
  static char text[16 + 2 * MOST + 1];
  static uint8_t bytes[MOST];
  const opened_file *f = opened_at(fd);
  while (f->in && f->in->filled > 0) {
    int64_t n = plain_call(&(detio_call){.kind = DETIO_READ, .descriptor = fd, .number = MOST}, NULL, 0, bytes, MOST);
    if (n <= 0) break;
    note_moved(f, n, 0);
    int at = snprintf(text, sizeof text, "%d ", fd);
    for (int64_t i = 0; i < n; i++) at += snprintf(text + at, sizeof text - (size_t)at, "%02x", bytes[i]);
    add_entry(to, "bytes", text);
  }
}
void add_kept(entries *to) {
  char text[128];
  for (int fd = 0; fd < ORACLE; fd++) {
    const opened_file *f = opened_at(fd);
    if (!stays_open(fd)) continue;
    if (f->kind >= EVENT || f->kind == MEMORY) {
      uncovered("kept", "descriptor %d, which is no file, pipe or socket of the host, is closed by exec", fd);
      continue;
    }
    bool socket = f->kind == STREAM || f->kind == LISTENER;
    snprintf(text, sizeof text, "%d %d %d %d %d %d %d %d %d", fd, first_of(f), socket ? NET : f->kind, f->real,
             control(fd, F_GETFL, 0), f->waits, f->directory, f->kind == PIPE ? peer_of(f) : -1, f->in && f->out);
    add_entry(to, "kept", text);
    if (f->kind == PIPE && first_of(f) == fd) add_bytes(to, fd);
    if (f->real < NATIVE) continue;
    KERNEL(SYS_fcntl, f->real, F_SETFD, 0);
    if (socket) KERNEL(SYS_fcntl, f->real, F_SETFL, KERNEL(SYS_fcntl, f->real, F_GETFL) | O_NONBLOCK);
  }
}

/* The next program's table. Each number is taken at first, and given back for what has its place there. */
static kept all[NUMBERS];
static int count;
static void read_kept(void) {
  size_t at = 0;
  for (const char *it; count < NUMBERS && (it = next_value(about_start(), "kept", &at));) {
    kept *k = &all[count++];
    int *to[] = {&k->fd, &k->first, &k->kind, &k->real, &k->flags, &k->waits, &k->directory, &k->peer, &k->both};
    char *rest = (char *)it;
    for (size_t i = 0; i < sizeof to / sizeof *to; i++) *to[i] = (int)strtol(rest, &rest, 10);
  }
}
static const kept *kept_at(int fd) {
  for (int i = 0; i < count; i++)
    if (all[i].fd == fd) return &all[i];
  return NULL;
}
static void take_place(void) {
  detio_reply r;
  make_call(&(detio_call){.kind = DETIO_OPEN, .choice = DETIO_READ_WRITE, .flags = DETIO_CREATE}, "/.std", 5, NULL, 0,
            &r, NULL, 0);
}
static void give_place(int fd) { (void)call_on(fd, DETIO_CLOSE, 0); }
static void must_be(int64_t made, int fd) {
  if (made != fd) ends(OURS, "descriptor %d is not kept by exec: it comes as %ld", fd, (long)made);
}

/* A number that nothing has, and is none of these two. */
static int spare(int one, int other) {
  for (int fd = ORACLE - 1; fd >= 0; fd--)
    if (!kept_at(fd) && fd != one && fd != other) return fd;
  ends(OURS, "no number is free for a pipe that exec keeps");
}
/* A pipe or pair, one end of which has this number, and the other that one. */
static void make_ends(int reads, int writes, bool both) {
  detio_reply r;
  give_place(reads);
  give_place(writes);
  make_call(&(detio_call){.kind = both ? DETIO_SOCKETPAIR : DETIO_PIPE}, NULL, 0, NULL, 0, &r, NULL, 0);
  must_be(r.kind == DETIO_PAIR ? r.first : -1, reads < writes ? reads : writes);
  if (!both && r.first != reads) { /* the end that reads has the lower number at first */
    int between = spare(reads, writes);
    give_place(between);
    must_be(call_on((int)r.first, DETIO_DUP, 0), between);
    must_be(call_on((int)r.second, DETIO_DUP2, r.first), writes);
    must_be(call_on(between, DETIO_DUP2, r.second), reads);
    give_place(between);
    take_place();
  }
  opened_file *one = new_opened(reads, PIPE, -1), *other = new_opened(writes, PIPE, -1);
  join_ends(one, other, both);
}
static void fill(int fd, int from) {
  static uint8_t bytes[MOST];
  size_t at = 0;
  for (const char *it; (it = next_value(about_start(), "bytes", &at));) {
    char *rest = NULL;
    size_t length = 0;
    if (strtol(it, &rest, 10) != fd || !*rest++) continue;
    for (; length < MOST && rest[0] && rest[1]; rest += 2) {
      char two[3] = {rest[0], rest[1], 0};
      bytes[length++] = (uint8_t)strtol(two, NULL, 16);
    }
    int64_t n = plain_call(&(detio_call){.kind = DETIO_WRITE, .descriptor = from}, bytes, length, NULL, 0);
    must_be(n, (int)length);
    note_moved(opened_at(from), 0, n);
  }
}
static void take_pipe(const kept *k) {
  bool reads = k->both || (k->flags & O_ACCMODE) == O_RDONLY;
  int other = k->peer >= 0 ? k->peer : spare(k->fd, -1);
  if (k->peer >= 0 && k->peer < k->fd) return; /* it came with the other end */
  make_ends(reads ? k->fd : other, reads ? other : k->fd, k->both);
  fill(k->fd, other);
  fill(other, k->fd);
  if (k->peer >= 0) return;
  give_place(other);
  refer(other, NULL);
  take_place();
}
static void take_file(const kept *k) {
  slot *s = &slots[me];
  question q = {.at = k->real};
  give_place(k->fd);
  if (k->kind == STANDARD) {
    take_place();
    new_opened(k->fd, STANDARD, k->real);
    return;
  }
  s->asked = &q;
  must_be(plain_call(&(detio_call){.kind = DETIO_HOST_OPEN, .choice = (uint32_t)(k->flags & O_ACCMODE)}, "detio:f", 7,
                     NULL, 0), k->fd);
  s->asked = NULL;
  opened_file *f = new_opened(k->fd, (enum kind)k->kind, s->opened);
  f->waits = k->waits;
  f->directory = k->directory;
  if (!run.replays) KERNEL(SYS_close, k->real);
}

void take_kept(void) {
  read_kept();
  for (int fd = 0; fd < ORACLE; fd++) take_place();
  for (int i = 0; i < count; i++) {
    const kept *k = &all[i];
    if (k->first < k->fd) {
      must_be(call_on(k->first, DETIO_DUP2, k->fd), k->fd);
      refer(k->fd, opened_at(k->first));
      continue;
    }
    if (k->kind == PIPE) take_pipe(k);
    else take_file(k);
  }
  for (int i = 0; i < count; i++)
    if (all[i].flags & (O_APPEND | O_NONBLOCK)) (void)control(all[i].fd, F_SETFL, all[i].flags);
  for (int fd = 0; fd < ORACLE; fd++)
    if (!kept_at(fd)) give_place(fd);
}
