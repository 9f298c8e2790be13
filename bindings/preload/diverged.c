/* Where a rerun diverges: what a thread asks there, and what its log has. */
#define _GNU_SOURCE
#include "preload.h"

#include <stdio.h>
#include <string.h>

static const char *const questions[] = {
    [ASK_ABOUT] = "what the program is",
    [ASK_WAITED] = "the end of a wait",
    [ASK_CLOCK] = "the time",
    [ASK_RESOLUTION] = "the resolution of a clock",
    [ASK_RANDOM] = "bytes by chance",
    [ASK_NUMBER] = "a number of the process",
    [ASK_NUMBERS] = "numbers of the process",
    [ASK_PATHCONF] = "a limit of a file",
    [ASK_ERROR] = "the reason of an error",
    [ASK_KIND] = "the kind of a file",
    [ASK_CLOSED] = "the end of a thread",
    [ASK_SIGNAL] = "a signal",
    [ASK_COUNT] = "what the processor counts",
    [ASK_LEFT] = "what is left of a sleep",
    [LAST_SURE] = "?",
    [ASK_STAT] = "stat",
    [ASK_FSTAT] = "fstat",
    [ASK_STATFS] = "statfs",
    [ASK_FSTATFS] = "fstatfs",
    [ASK_PREAD] = "pread",
    [ASK_PWRITE] = "pwrite",
    [ASK_FTRUNCATE] = "ftruncate",
    [ASK_TRUNCATE] = "truncate",
    [ASK_FALLOCATE] = "fallocate",
    [ASK_FSYNC] = "fsync",
    [ASK_FLOCK] = "flock",
    [ASK_LOCKED] = "a lock of a file",
    [ASK_UNLINK] = "unlink",
    [ASK_RENAME] = "rename",
    [ASK_LINK] = "link",
    [ASK_SYMLINK] = "symlink",
    [ASK_MKDIR] = "mkdir",
    [ASK_MKNOD] = "mknod",
    [ASK_ACCESS] = "access",
    [ASK_CHMOD] = "chmod",
    [ASK_FCHMOD] = "fchmod",
    [ASK_CHOWN] = "chown",
    [ASK_FCHOWN] = "fchown",
    [ASK_UTIMES] = "utimes",
    [ASK_READLINK] = "readlink",
    [ASK_REALPATH] = "realpath",
    [ASK_GETCWD] = "getcwd",
    [ASK_CHDIR] = "chdir",
    [ASK_FCHDIR] = "fchdir",
    [ASK_LISTING] = "names in a directory",
    [ASK_GETXATTR] = "getxattr",
    [ASK_FGETXATTR] = "fgetxattr",
    [ASK_LISTXATTR] = "listxattr",
    [ASK_FLISTXATTR] = "flistxattr",
    [ASK_IOCTL] = "ioctl",
    [ASK_SOCKNAME] = "getsockname",
    [ASK_PEERNAME] = "getpeername",
    [ASK_KILL] = "kill",
    [ASK_CHILD] = "a command",
    [ASK_SYSINFO] = "sysinfo",
    [ASK_UNAME] = "uname",
    [ASK_USAGE] = "getrusage",
    [ASK_TIMES] = "times",
    [ASK_AFFINITY] = "sched_getaffinity",
    [ASK_SIGNALS] = "sigpending",
    [ASK_TIMER] = "a timer",
    [ASK_NET] = "what a socket does",
    [ASK_HOSTS] = "the addresses of a host",
    [ASK_EXEC] = "exec"};
enum { QUESTIONS = sizeof questions / sizeof *questions };
static const char *const requests[] = {"",       "open",    "a read", "a write",  "lseek",
                                       "listen", "connect", "accept", "shutdown", "close"};
enum { REQUESTS = sizeof requests / sizeof *requests };

const char *question_asked(const question *q) {
  static char text[300];
  const char *what = (unsigned)q->what < QUESTIONS ? questions[q->what] : "?";
  snprintf(text, sizeof text, "%s%s%.200s", what, q->path ? " of " : "", q->path ? q->path : "");
  return text;
}
const char *call_asked(const detio_outside *asked, const question *q) {
  static char text[300];
  const char *what = asked->kind < REQUESTS ? requests[asked->kind] : "?";
  if (asked->kind == DETIO_ASKS_OPEN && q && q->path) snprintf(text, sizeof text, "open of %.200s", q->path);
  else if (asked->kind == DETIO_ASKS_READ && q) return question_asked(q);
  else if (asked->kind == DETIO_ASKS_READ) snprintf(text, sizeof text, "a read of at most %lu bytes", asked->asked);
  else if (asked->kind == DETIO_ASKS_WRITE) snprintf(text, sizeof text, "a write of %zu bytes", asked->length);
  else snprintf(text, sizeof text, "%s", what);
  return text;
}

/* What the next record of this thread says. */
static void describe_record(char *text, size_t room) {
  size_t length = 0;
  uint8_t kind = 0, error = 0;
  const uint8_t *bytes = next_record(me, &kind, &error, &length);
  answer_head h;
  if (bytes && length >= sizeof h) memcpy(&h, bytes, sizeof h);
  bool answers = bytes && kind == DETIO_ASKS_READ && !error && length >= sizeof h && h.what && h.what < QUESTIONS &&
                 (h.result == -1 || !h.error);
  if (!bytes) snprintf(text, room, "no outcome");
  else if (answers) snprintf(text, room, "the answer to %s", questions[h.what]);
  else if (kind == DETIO_ASKS_READ && !error) snprintf(text, room, "a read of %zu bytes", length);
  else snprintf(text, room, "%s%s", kind < REQUESTS ? requests[kind] : "?", error ? " that failed" : "");
}

_Noreturn void end_diverged(const char *asked, const answer_head *had) {
  const slot *s = &slots[me];
  const char *answered = had && had->what && had->what < QUESTIONS ? questions[had->what] : "?";
  char logged[200];
  place at;
  if (!had) describe_record(logged, sizeof logged);
  else if (strncmp(asked, answered, strlen(answered))) snprintf(logged, sizeof logged, "the answer to %s", answered);
  else snprintf(logged, sizeof logged, "the answer to that of something else, or after other writes");
  ends(DIVERGED,
       "the rerun diverges: thread %d, in its call %lu at %s, asks for %s; its log has %s, as outcome %lu", me,
       s->calls, caller_text(s, &at), asked, logged, s->outcomes + !had);
}
