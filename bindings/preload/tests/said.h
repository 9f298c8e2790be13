/* What the programs share: a line for each call, with its result, or the name of its error. */
#ifndef SAID_H
#define SAID_H

#include <errno.h>
#include <stdio.h>
#include <string.h>

static void said(const char *what, long result) {
  if (result < 0) printf("%s: %s\n", what, strerrorname_np(errno) ? strerrorname_np(errno) : "?");
  else printf("%s: %ld\n", what, result);
}
/* Of a call that returns its error. */
static inline void told(const char *what, int code) { printf("%s: %s\n", what, code ? strerrorname_np(code) : "0"); }

#define SAY(call) said(#call, (long)(call))
#define TELL(call) told(#call, call)

#endif
