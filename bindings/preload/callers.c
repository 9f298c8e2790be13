/* Who made a call: the place in the program that it returns to. */
#define _GNU_SOURCE
#include "preload.h"

#include <fcntl.h>
#include <link.h>
#include <stdio.h>
#include <string.h>
#include <sys/auxv.h>
#include <sys/syscall.h>

range own_code, c_library, loader, kernel_code;

/* The addresses of one thing that is loaded. */
static int note_range(struct dl_phdr_info *it, size_t size, void *given) {
  range all = {UINTPTR_MAX, 0};
  (void)size, (void)given;
  for (int i = 0; i < it->dlpi_phnum; i++) {
    const ElfW(Phdr) *part = &it->dlpi_phdr[i];
    uintptr_t first = it->dlpi_addr + part->p_vaddr, end = first + part->p_memsz;
    if (part->p_type != PT_LOAD) continue;
    if (first < all.first) all.first = first;
    if (end > all.end) all.end = end;
  }
  const char *slash = strrchr(it->dlpi_name, '/'), *name = slash ? slash + 1 : it->dlpi_name;
  if (is_in(&all, (void *)note_range)) own_code = all;
  else if (!strcmp(name, "libc.so.6")) c_library = all;
  else if (!strncmp(name, "ld-linux", 8)) loader = all;
  else if (is_in(&all, (void *)getauxval(AT_SYSINFO_EHDR))) kernel_code = all;
  return 0;
}
void begin_callers(void) { dl_iterate_phdr(note_range, NULL); }

/* Of a call that our own code makes, the first caller outside, by our frames; or NULL, where the C library made it
 * within another call of the program. */
void *caller_of_frames(void *const *frame) {
  void *from = frame[1];
  for (int depth = 0; depth < 32 && is_in(&own_code, from); depth++) {
    frame = frame[0];
    from = frame[1];
  }
  return is_in(&own_code, from) || is_in(&c_library, from) ? NULL : from;
}

/* What is mapped, line by line. */
typedef struct { int from; size_t at, length; char bytes[1024]; } maps;
static bool next_line(maps *m, char *line, size_t room) {
  for (size_t used = 0;;) {
    if (m->at == m->length) {
      long n = KERNEL(SYS_read, m->from, m->bytes, sizeof m->bytes);
      if (n <= 0) return false;
      m->length = (size_t)n;
      m->at = 0;
    }
    char c = m->bytes[m->at++];
    if (c == '\n') return line[used] = 0, true;
    if (used + 1 < room) line[used++] = c;
  }
}

/* A place as `file+offset`, where the file is mapped, else as an address. */
const char *place_of(const void *address, place *to) {
  maps m = {.from = (int)KERNEL(SYS_open, "/proc/self/maps", O_RDONLY | O_CLOEXEC, 0)};
  char line[512], last[512] = "";
  unsigned long first, end, base = 0, at = (unsigned long)address;
  snprintf(to->text, sizeof to->text, "%p", address);
  while (m.from >= 0 && next_line(&m, line, sizeof line)) {
    const char *path = strchr(line, '/'), *name = path ? strrchr(path, '/') + 1 : NULL;
    if (sscanf(line, "%lx-%lx", &first, &end) != 2) continue;
    if (path && strcmp(path, last)) strcpy(last, path), base = first;
    if (at < first || at >= end) continue;
    if (path) snprintf(to->text, sizeof to->text, "%s+0x%lx", name, at - base);
    break;
  }
  if (m.from >= 0) KERNEL(SYS_close, m.from);
  return to->text;
}
