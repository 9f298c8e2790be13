/* Which blocks of this code were reached, where it is made with -fsanitize-coverage=trace-pc: each has a byte in a file
 * that all processes share, by its place in what is loaded. tools/covered reads it. */
#include "preload.h"

#include <fcntl.h>
#include <sys/mman.h>
#include <sys/prctl.h>
#include <sys/syscall.h>

#pragma weak detio_heap_malloc /* the launcher has none */
enum { COVERED = 1 << 22 };
extern const char __ehdr_start[] __attribute__((visibility("hidden")));
void __sanitizer_cov_trace_pc(void);
__attribute__((visibility("hidden"), no_sanitize_coverage)) void __sanitizer_cov_trace_pc(void) {
  static char *reached;
  static int opened;
  size_t at = (size_t)((const char *)__builtin_return_address(0) - __ehdr_start);
  if (!opened) {
    opened = 1;
    bool refuses = KERNEL(SYS_prctl, PR_GET_SECCOMP, 0); /* a rerun that goes on by exec opens nothing to write */
    long file = refuses ? -1 : KERNEL(SYS_open, DETIO_COVERAGE, O_RDWR | O_CLOEXEC, 0);
    long there = file < 0 ? file : KERNEL(SYS_mmap, NULL, 2 * COVERED, PROT_READ | PROT_WRITE, MAP_SHARED, file, 0);
    if (file >= 0) KERNEL(SYS_close, file);
    if (there > 0) reached = (char *)there + (detio_heap_malloc ? 0 : COVERED);
  }
  if (reached && at < COVERED) reached[at] = 1;
}
