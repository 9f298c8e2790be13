/* stdio: the C library's own calls go past us, so a FILE of a number of ours is a cookie; and a call on it is made
 * under a lock of its own, which is taken in the order of turns, where other threads are there. */
#define _GNU_SOURCE
#include "preload.h"

#include <execinfo.h>
#include <fcntl.h>
#include <limits.h>
#include <stdio.h>
#include <stdio_ext.h>
#include <stdlib.h>
#include <string.h>
#include <unistd.h>

/* Names that the headers have as macros too. */
#undef feof_unlocked
#undef ferror_unlocked
#undef clearerr_unlocked
#undef fwrite_unlocked
#undef fread_unlocked

enum { STREAMS = 64 };
typedef struct {
  FILE *file;
  int fd;
  pthread_mutex_t lock;
} stream;
static stream streams[STREAMS];
static FILE *first_three[3]; /* as the C library had them */

static stream *stream_of(const FILE *file) {
  for (int i = 0; file && i < STREAMS; i++)
    if (streams[i].file == file) return &streams[i];
  return NULL;
}
/* A standard stream that somebody kept from before the run is ours. */
static FILE *ours(FILE *file) {
  for (int i = 0; i < 3; i++)
    if (file && file == first_three[i]) return streams[i].file;
  return file;
}

bool is_stream(FILE **file) {
  *file = ours(*file);
  return stream_of(*file) != NULL;
}

static ssize_t read_stream(void *at, char *bytes, size_t count) { return read(((stream *)at)->fd, bytes, count); }
static ssize_t write_stream(void *at, const char *bytes, size_t count) {
  ssize_t done = write(((stream *)at)->fd, bytes, count);
  return done < 0 ? 0 : done;
}
static int seek_stream(void *at, off64_t *place, int whence) {
  off_t found = lseek(((stream *)at)->fd, *place, whence);
  if (found >= 0) *place = found;
  return found < 0 ? -1 : 0;
}
static int close_stream(void *at) { return close(((stream *)at)->fd); }

static stream *hold(FILE *file) {
  stream *s = stream_of(file);
  if (!s || !others_alive()) return NULL;
  (void)pthread_mutex_lock(&s->lock);
  return s;
}
static void let_go(stream *s) {
  if (s) (void)pthread_mutex_unlock(&s->lock);
}

/* The flags of an opening by the mode of fopen, and that mode without what a cookie does not know. */
static int flags_of(const char *mode, char plain[3]) {
  bool both = strchr(mode, '+') != NULL;
  int how = *mode == 'r'   ? (both ? O_RDWR : O_RDONLY)
            : *mode == 'w' ? (both ? O_RDWR : O_WRONLY) | O_CREAT | O_TRUNC
            : *mode == 'a' ? (both ? O_RDWR : O_WRONLY) | O_CREAT | O_APPEND : -1;
  plain[0] = *mode;
  plain[1] = both ? '+' : 0;
  plain[2] = 0;
  if (how < 0) return errno = EINVAL, -1;
  return how | (strchr(mode, 'x') ? O_EXCL : 0) | (strchr(mode, 'e') ? O_CLOEXEC : 0);
}

FILE *new_stream(int fd, const char *mode) {
  char plain[3];
  int i = 0;
  if (flags_of(mode, plain) < 0) return NULL;
  lock_run();
  while (i < STREAMS && streams[i].file) i++;
  if (i < STREAMS) streams[i].file = (FILE *)&streams[i];
  unlock_run();
  if (i == STREAMS) {
    uncovered("streams", "no room for one more FILE: %d are open: it fails, in a rerun too", STREAMS);
    return errno = EMFILE, NULL;
  }
  stream *s = &streams[i];
  s->fd = fd;
  s->lock = (pthread_mutex_t)PTHREAD_RECURSIVE_MUTEX_INITIALIZER_NP;
  FILE *file = fopencookie(s, plain, (cookie_io_functions_t){read_stream, write_stream, seek_stream, close_stream});
  s->file = file;
  return file;
}

EXPORT FILE *fdopen(int fd, const char *mode) {
  NEXT(fdopen);
  OFF(next(fd, mode));
  if (!is_ours(fd)) return next(fd, mode);
  return opened_at(fd)->kind == NONE ? (errno = EBADF, NULL) : new_stream(fd, mode);
}
EXPORT FILE *fopen(const char *path, const char *mode) {
  NEXT(fopen);
  OFF(next(path, mode));
  char plain[3];
  int how = flags_of(mode, plain);
  if (!asked_of_us(path)) return next(path, mode);
  int fd = how < 0 ? -1 : open(path, how, 0666);
  if (fd < 0) return NULL;
  FILE *file = new_stream(fd, mode);
  if (!file) (void)close(fd);
  return file;
}
EXPORT FILE *fopen64(const char *path, const char *mode) { return fopen(path, mode); }
/* A FILE may read and write by its mode: these are the C library's marks. */
static void set_mode(FILE *file, int how) {
  enum { NO_READS = 4, NO_WRITES = 8 };
  file->_flags &= ~(NO_READS | NO_WRITES);
  if ((how & O_ACCMODE) == O_RDONLY) file->_flags |= NO_WRITES;
  if ((how & O_ACCMODE) == O_WRONLY) file->_flags |= NO_READS;
  file->_offset = -1; /* it is at no place that is known */
}
EXPORT FILE *freopen(const char *path, const char *mode, FILE *file) {
  NEXT(freopen);
  OFF(next(path, mode, file));
  stream *s = stream_of(ours(file));
  char plain[3];
  int how = flags_of(mode, plain);
  if (!s) return next(path, mode, file);
  if (how < 0) return NULL;
  (void)fflush(s->file);
  if (!path) return s->file;
  __fpurge(s->file);
  clearerr(s->file);
  int fd = open(path, how, 0666);
  if (fd < 0) return (void)fclose(s->file), NULL;
  if (fd != s->fd) {
    (void)dup2(fd, s->fd);
    (void)close(fd);
  }
  set_mode(s->file, how);
  return s->file;
}
EXPORT FILE *freopen64(const char *path, const char *mode, FILE *file) { return freopen(path, mode, file); }
EXPORT FILE *tmpfile(void) {
  NEXT(tmpfile);
  OFF(next());
  char name[] = "/tmp/detio-XXXXXX";
  int fd = mkstemp(name);
  if (fd < 0) return NULL;
  (void)unlink(name);
  return fdopen(fd, "w+");
}
EXPORT FILE *tmpfile64(void) { return tmpfile(); }
EXPORT int fclose(FILE *file) {
  NEXT(fclose);
  OFF(next(file));
  stream *s = stream_of(ours(file)), *held = hold(ours(file));
  int r = next(ours(file));
  if (s) s->file = NULL;
  let_go(held);
  return r;
}
EXPORT int fileno(FILE *file) {
  NEXT(fileno);
  OFF(next(file));
  const stream *s = stream_of(ours(file));
  return s ? s->fd : next(file);
}
EXPORT int fileno_unlocked(FILE *file) { return fileno(file); }

/* `name` of the C library on a FILE, held. */
#define HELD(type, name, given, file, passed)   \
  EXPORT type name given {                      \
    NEXT(name);                                 \
    if (takes_part()) file = ours(file);        \
    OFF(next passed);                           \
    stream *held = hold(file);                  \
    type r = next passed;                       \
    let_go(held);                               \
    return r;                                   \
  }
HELD(int, vfprintf, (FILE * f, const char *s, va_list a), f, (f, s, a))
HELD(int, fputs, (const char *s, FILE *f), f, (s, f))
HELD(int, fputc, (int c, FILE *f), f, (c, f))
HELD(int, putc, (int c, FILE *f), f, (c, f))
HELD(size_t, fwrite, (const void *b, size_t n, size_t m, FILE *f), f, (b, n, m, f))
HELD(size_t, fread, (void *b, size_t n, size_t m, FILE *f), f, (b, n, m, f))
HELD(char *, fgets, (char *b, int n, FILE *f), f, (b, n, f))
HELD(int, fgetc, (FILE * f), f, (f))
HELD(int, getc, (FILE * f), f, (f))
HELD(int, ungetc, (int c, FILE *f), f, (c, f))
HELD(ssize_t, getline, (char **b, size_t *n, FILE *f), f, (b, n, f))
HELD(ssize_t, getdelim, (char **b, size_t *n, int c, FILE *f), f, (b, n, c, f))
HELD(int, fseek, (FILE * f, long to, int whence), f, (f, to, whence))
HELD(int, fseeko, (FILE * f, off_t to, int whence), f, (f, to, whence))
HELD(int, fseeko64, (FILE * f, off64_t to, int whence), f, (f, to, whence))
HELD(long, ftell, (FILE * f), f, (f))
HELD(off_t, ftello, (FILE * f), f, (f))
HELD(off64_t, ftello64, (FILE * f), f, (f))
HELD(int, fgetpos, (FILE * f, fpos_t *to), f, (f, to))
HELD(int, fsetpos, (FILE * f, const fpos_t *to), f, (f, to))
HELD(int, fgetpos64, (FILE * f, fpos64_t *to), f, (f, to))
HELD(int, fsetpos64, (FILE * f, const fpos64_t *to), f, (f, to))
HELD(int, getw, (FILE * f), f, (f))
HELD(int, putw, (int w, FILE *f), f, (w, f))
HELD(int, setvbuf, (FILE * f, char *b, int how, size_t n), f, (f, b, how, n))
HELD(int, feof, (FILE * f), f, (f))
HELD(int, ferror, (FILE * f), f, (f))
HELD(size_t, fwrite_unlocked, (const void *b, size_t n, size_t m, FILE *f), f, (b, n, m, f))
HELD(size_t, fread_unlocked, (void *b, size_t n, size_t m, FILE *f), f, (b, n, m, f))
HELD(int, fputs_unlocked, (const char *s, FILE *f), f, (s, f))
HELD(char *, fgets_unlocked, (char *b, int n, FILE *f), f, (b, n, f))
HELD(int, fputc_unlocked, (int c, FILE *f), f, (c, f))
HELD(int, putc_unlocked, (int c, FILE *f), f, (c, f))
HELD(int, fgetc_unlocked, (FILE * f), f, (f))
HELD(int, getc_unlocked, (FILE * f), f, (f))
HELD(int, feof_unlocked, (FILE * f), f, (f))
HELD(int, ferror_unlocked, (FILE * f), f, (f))

EXPORT int fflush(FILE *file) {
  NEXT(fflush);
  OFF(next(file));
  file = ours(file);
  stream *held = hold(file);
  int r = next(file);
  let_go(held);
  return r;
}
EXPORT int fflush_unlocked(FILE *file) { return fflush(file); }
#define HELD_VOID(name, given, file, passed)    \
  EXPORT void name given {                      \
    NEXT(name);                                 \
    if (!takes_part()) {                        \
      next passed;                              \
      return;                                   \
    }                                           \
    file = ours(file);                          \
    stream *held = hold(file);                  \
    next passed;                                \
    let_go(held);                               \
  }
HELD_VOID(rewind, (FILE * f), f, (f))
HELD_VOID(clearerr, (FILE * f), f, (f))
HELD_VOID(setbuf, (FILE * f, char *b), f, (f, b))
HELD_VOID(setlinebuf, (FILE * f), f, (f))
HELD_VOID(setbuffer, (FILE * f, char *b, size_t n), f, (f, b, n))
HELD_VOID(clearerr_unlocked, (FILE * f), f, (f))
EXPORT void flockfile(FILE *file) {
  NEXT(flockfile);
  stream *s = takes_part() ? stream_of(ours(file)) : NULL;
  if (s) (void)pthread_mutex_lock(&s->lock);
  else next(file);
}
EXPORT void funlockfile(FILE *file) {
  NEXT(funlockfile);
  stream *s = takes_part() ? stream_of(ours(file)) : NULL;
  if (s) (void)pthread_mutex_unlock(&s->lock);
  else next(file);
}
EXPORT int ftrylockfile(FILE *file) {
  NEXT(ftrylockfile);
  stream *s = takes_part() ? stream_of(ours(file)) : NULL;
  return s ? pthread_mutex_trylock(&s->lock) != 0 : next(file);
}

/* Those that write to standard output, or take their arguments one by one. */
EXPORT int puts(const char *text) {
  NEXT(puts);
  OFF(next(text));
  stream *held = hold(stdout);
  int r = next(text);
  let_go(held);
  return r;
}
/* New headers do not have it. */
EXPORT char *read_line(char *) __asm__("gets");
char *read_line(char *to) {
  static char *(*next)(char *);
  if (!next) next = (char *(*)(char *))dlsym(RTLD_NEXT, "gets");
  OFF(next(to));
  stream *held = hold(stdin);
  char *r = next(to);
  let_go(held);
  return r;
}
EXPORT char *__gets_chk(char *to, size_t room) {
  char *r = fgets(to, room > INT_MAX ? INT_MAX : (int)room, stdin);
  size_t length = r ? strlen(r) : 0;
  if (length && r[length - 1] == '\n') r[length - 1] = 0;
  else if (length + 1 == room) abort();
  return r;
}
EXPORT int putchar(int c) { return putc(c, stdout); }
EXPORT int putchar_unlocked(int c) { return putc(c, stdout); }
EXPORT int getchar(void) { return getc(stdin); }
EXPORT int getchar_unlocked(void) { return getc(stdin); }
EXPORT int vprintf(const char *s, va_list a) { return vfprintf(stdout, s, a); }
EXPORT int __vfprintf_chk(FILE *f, int k, const char *s, va_list a) { return (void)k, vfprintf(f, s, a); }
EXPORT int __vprintf_chk(int k, const char *s, va_list a) { return (void)k, vfprintf(stdout, s, a); }
#define WITH_ARGUMENTS(last, call)  \
  {                                 \
    va_list a;                      \
    va_start(a, last);              \
    int r = call;                   \
    va_end(a);                      \
    return r;                       \
  }
EXPORT int fprintf(FILE *f, const char *s, ...) WITH_ARGUMENTS(s, vfprintf(f, s, a))
EXPORT int printf(const char *s, ...) WITH_ARGUMENTS(s, vfprintf(stdout, s, a))
EXPORT int __printf_chk(int k, const char *s, ...) WITH_ARGUMENTS(s, ((void)k, vfprintf(stdout, s, a)))
EXPORT int __fprintf_chk(FILE *f, int k, const char *s, ...) WITH_ARGUMENTS(s, ((void)k, vfprintf(f, s, a)))

/* Headers give the functions that scan other names, so that each of their names stands here for itself. */
#define SCANS(own, symbol)                                                      \
  EXPORT int own(FILE *f, const char *s, va_list a) __asm__(symbol);            \
  int own(FILE *f, const char *s, va_list a) {                                  \
    static int (*next)(FILE *, const char *, va_list);                          \
    if (!next) next = (int (*)(FILE *, const char *, va_list))dlsym(RTLD_NEXT, symbol); \
    if (takes_part()) f = ours(f);                                              \
    OFF(next(f, s, a));                                                         \
    stream *held = hold(f);                                                     \
    int r = next(f, s, a);                                                      \
    let_go(held);                                                               \
    return r;                                                                   \
  }
#define SCANS_AS(own, symbol, given, call)     \
  EXPORT int own given __asm__(symbol);        \
  int own given call
SCANS(scan, "vfscanf")
SCANS(scan99, "__isoc99_vfscanf")
SCANS_AS(scan_old, "_IO_vfscanf", (FILE * f, const char *s, va_list a, int *error),
         { int r = scan(f, s, a); return error ? (*error = r == EOF, r) : r; })
SCANS_AS(scan_input, "vscanf", (const char *s, va_list a), { return scan(stdin, s, a); })
SCANS_AS(scan_input99, "__isoc99_vscanf", (const char *s, va_list a), { return scan99(stdin, s, a); })
SCANS_AS(scan_file, "fscanf", (FILE * f, const char *s, ...), WITH_ARGUMENTS(s, scan(f, s, a)))
SCANS_AS(scan_file99, "__isoc99_fscanf", (FILE * f, const char *s, ...), WITH_ARGUMENTS(s, scan99(f, s, a)))
SCANS_AS(scan_words, "scanf", (const char *s, ...), WITH_ARGUMENTS(s, scan(stdin, s, a)))
SCANS_AS(scan_words99, "__isoc99_scanf", (const char *s, ...), WITH_ARGUMENTS(s, scan99(stdin, s, a)))
EXPORT ssize_t __getdelim(char **b, size_t *n, int c, FILE *f) { return getdelim(b, n, c, f); }
EXPORT size_t __fread_chk(void *b, size_t room, size_t n, size_t m, FILE *f) {
  if (n && m > room / n) abort();
  return fread(b, n, m, f);
}
EXPORT char *__fgets_chk(char *b, size_t room, int n, FILE *f) {
  if (n > 0 && (size_t)n > room) abort();
  return fgets(b, n, f);
}
EXPORT char *__fgets_unlocked_chk(char *b, size_t room, int n, FILE *f) { return __fgets_chk(b, room, n, f); }
EXPORT size_t __fread_unlocked_chk(void *b, size_t room, size_t n, size_t m, FILE *f) {
  return __fread_chk(b, room, n, m, f);
}

/* A line straight to a descriptor. */
EXPORT int vdprintf(int fd, const char *s, va_list a) {
  NEXT(vdprintf);
  OFF(next(fd, s, a));
  if (!is_ours(fd)) return next(fd, s, a);
  char *text = NULL;
  int length = vasprintf(&text, s, a);
  if (length > 0) length = (int)write(fd, text, (size_t)length);
  free(text);
  return length;
}
EXPORT int dprintf(int fd, const char *s, ...) WITH_ARGUMENTS(s, vdprintf(fd, s, a))
EXPORT int __dprintf_chk(int fd, int k, const char *s, ...) WITH_ARGUMENTS(s, ((void)k, vdprintf(fd, s, a)))
EXPORT int __vdprintf_chk(int fd, int k, const char *s, va_list a) { return (void)k, vdprintf(fd, s, a); }
EXPORT void backtrace_symbols_fd(void *const *from, int count, int fd) {
  NEXT(backtrace_symbols_fd);
  if (!takes_part() || !is_ours(fd)) {
    next(from, count, fd);
    return;
  }
  char **names = backtrace_symbols(from, count);
  for (int i = 0; names && i < count; i++) dprintf(fd, "%s\n", names[i]);
  free(names);
}
EXPORT void perror(const char *before) {
  const char *text = strerror(errno);
  fprintf(stderr, "%s%s%s\n", before && *before ? before : "", before && *before ? ": " : "", text);
}

/* The three standard streams are cookies from now on. */
void begin_files(void) {
  bool terminal = isatty(1);
  first_three[0] = stdin;
  first_three[1] = stdout;
  first_three[2] = stderr;
  stdin = new_stream(0, "r");
  stdout = new_stream(1, "w");
  stderr = new_stream(2, "w");
  if (!stdin || !stdout || !stderr) ends(OURS, "out of memory");
  if (terminal) (void)setvbuf(stdout, NULL, _IOLBF, BUFSIZ);
  (void)setvbuf(stderr, NULL, _IONBF, 0);
}
