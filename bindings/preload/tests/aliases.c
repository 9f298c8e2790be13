/* The other names that the C library has for its functions, which old programs are linked to: a line for each, as the C
 * library has it. */
#define _GNU_SOURCE
#include "said.h"

#include <dlfcn.h>
#include <fcntl.h>
#include <poll.h>
#include <pthread.h>
#include <signal.h>
#include <stdarg.h>
#include <stdlib.h>
#include <sys/socket.h>
#include <sys/statfs.h>
#include <sys/time.h>
#include <sys/wait.h>
#include <unistd.h>

/* `OTHER(of, name)` has the type of `of`, and its name in the C library is `name`. */
#define OTHER(of, name) extern __typeof__(of) name##_ __asm__(#name)
/* .. where a new program does not link to it: by the library below the program, or by the C library. */
static void *old(const char *name) {
  void *found = dlsym(RTLD_DEFAULT, name);
  return found ? found : dlvsym(RTLD_DEFAULT, name, "GLIBC_2.2.5");
}
#define OLD(of, name) ((__typeof__(of) *)old(name))
OTHER(close, __close);
OTHER(dup2, __dup2);
OTHER(fcntl, __fcntl);
OTHER(lseek, __lseek);
OTHER(open, __open);
OTHER(open64, __open64);
OTHER(pipe, __pipe);
OTHER(poll, __poll);
OTHER(pread64, __pread64);
OTHER(pwrite64, __pwrite64);
OTHER(read, __read);
OTHER(select, __select);
OTHER(write, __write);
OTHER(connect, __connect);
OTHER(send, __send);
OTHER(pthread_key_create, __pthread_key_create);
OTHER(sched_yield, __sched_yield);
OTHER(getpgid, __getpgid);
OTHER(getpid, __getpid);
OTHER(gettimeofday, __gettimeofday);
OTHER(nanosleep, __nanosleep);
OTHER(setpgid, __setpgid);
OTHER(sysconf, __sysconf);
OTHER(statfs, __statfs);
OTHER(fork, __fork);
OTHER(fork, __vfork);
OTHER(sigsuspend, __sigsuspend);
OTHER(raise, gsignal);
OTHER(popen, _IO_popen);
OTHER(fclose, _IO_fclose);
OTHER(fdopen, _IO_fdopen);
OTHER(feof, _IO_feof);
OTHER(ferror, _IO_ferror);
OTHER(fflush, _IO_fflush);
OTHER(fgetpos, _IO_fgetpos);
OTHER(fgetpos64, _IO_fgetpos64);
OTHER(fgets, _IO_fgets);
OTHER(flockfile, _IO_flockfile);
OTHER(fopen, _IO_fopen);
OTHER(fprintf, _IO_fprintf);
OTHER(fputs, _IO_fputs);
OTHER(fread, _IO_fread);
OTHER(fsetpos, _IO_fsetpos);
OTHER(fsetpos64, _IO_fsetpos64);
OTHER(ftell, _IO_ftell);
OTHER(ftrylockfile, _IO_ftrylockfile);
OTHER(funlockfile, _IO_funlockfile);
OTHER(fwrite, _IO_fwrite);
OTHER(getc, _IO_getc);
char *_IO_gets_(char *) __asm__("_IO_gets");
OTHER(printf, _IO_printf);
OTHER(putc, _IO_putc);
OTHER(puts, _IO_puts);
OTHER(setbuffer, _IO_setbuffer);
OTHER(setvbuf, _IO_setvbuf);
OTHER(ungetc, _IO_ungetc);
OTHER(vfprintf, _IO_vfprintf);
int __vfscanf_(FILE *, const char *, va_list) __asm__("__vfscanf");
int __clone_(long, long, long, long) __asm__("__clone");
void __backtrace_symbols_fd_(void *const *, int, int) __asm__("__backtrace_symbols_fd");

static char bytes[64];

static void descriptors(void) {
  int p[2], f = __open_("input.txt", O_RDONLY), g = __open64_("made.txt", O_RDWR | O_CREAT | O_TRUNC, 0600);
  fd_set in;
  SAY(f);
  SAY(g);
  SAY(__read_(f, bytes, 10));
  SAY(__lseek_(f, 4, SEEK_SET));
  SAY(OLD(lseek64, "llseek")(f, 0, SEEK_CUR));
  SAY(__write_(g, "abcdef", 6));
  SAY(__pwrite64_(g, "xy", 2, 1));
  SAY(__pread64_(g, bytes, 5, 0));
  printf("%.5s\n", bytes);
  SAY(__fcntl_(g, F_GETFL) & O_ACCMODE);
  SAY(__dup2_(g, 10));
  SAY(__pipe_(p));
  SAY(__poll_(&(struct pollfd){f, POLLIN, 0}, 1, 0));
  FD_ZERO(&in);
  FD_SET(f, &in);
  SAY(__select_(f + 1, &in, NULL, NULL, NULL));
  SAY(__connect_(f, &(struct sockaddr){.sa_family = AF_INET}, sizeof(struct sockaddr)));
  SAY(__send_(20, bytes, 1, 0));
  SAY(__close_(g));
  SAY(__close_(g));
}

static pthread_mutex_t mutex = PTHREAD_MUTEX_INITIALIZER;
static pthread_rwlock_t lock = PTHREAD_RWLOCK_INITIALIZER;
static pthread_once_t before = PTHREAD_ONCE_INIT;
static void does(void) { printf("once\n"); }
static void locks(void) {
  pthread_key_t key;
  TELL(__pthread_key_create_(&key, NULL));
  TELL(OLD(pthread_once, "__pthread_once")(&before, does));
  TELL(OLD(pthread_mutex_lock, "__pthread_mutex_lock")(&mutex));
  TELL(OLD(pthread_mutex_trylock, "__pthread_mutex_trylock")(&mutex));
  TELL(OLD(pthread_mutex_unlock, "__pthread_mutex_unlock")(&mutex));
  TELL(OLD(pthread_rwlock_rdlock, "__pthread_rwlock_rdlock")(&lock));
  TELL(OLD(pthread_rwlock_tryrdlock, "__pthread_rwlock_tryrdlock")(&lock));
  TELL(OLD(pthread_rwlock_trywrlock, "__pthread_rwlock_trywrlock")(&lock));
  for (int i = 0; i < 2; i++) TELL(OLD(pthread_rwlock_unlock, "__pthread_rwlock_unlock")(&lock));
  TELL(OLD(pthread_rwlock_wrlock, "__pthread_rwlock_wrlock")(&lock));
  SAY(__sched_yield_() + OLD(sched_yield, "pthread_yield")());
}

static void handles(int number) { printf("handled %d\n", number == SIGUSR1); }
static void processes(void) {
  struct timeval now;
  struct statfs s;
  sigset_t set, none;
  sigemptyset(&none);
  sigemptyset(&set);
  sigaddset(&set, SIGUSR1);
  signal(SIGUSR1, handles);
  SAY(__getpgid_(0) == getpgrp());
  SAY(__getpid_() == getpid());
  SAY(__gettimeofday_(&now, NULL) + (now.tv_sec > 1000000));
  SAY(__nanosleep_(&(struct timespec){0, 1000}, NULL));
  SAY(__setpgid_(1 << 22, 0));
  SAY(__sysconf_(_SC_PAGESIZE));
  SAY(__statfs_(".", &s));
  SAY(gsignal_(SIGUSR1));
  pthread_sigmask(SIG_BLOCK, &set, NULL);
  SAY(raise(SIGUSR1));
  SAY(__sigsuspend_(&none));
  SAY(__clone_(0, 0, 0, 0) < 0);
  FILE *command = _IO_popen_("echo said", "r");
  SAY(command && _IO_getc_(command) == 's' ? pclose(command) : -1);
}

static int scans(FILE *f, const char *format, ...) {
  va_list given;
  va_start(given, format);
  int count = __vfscanf_(f, format, given);
  va_end(given);
  return count;
}
static int prints(FILE *f, const char *format, ...) {
  va_list given;
  va_start(given, format);
  int count = _IO_vfprintf_(f, format, given);
  va_end(given);
  return count;
}
static void streams(void) {
  fpos_t at;
  fpos64_t at64;
  int number = 0;
  void *here = (void *)streams;
  SAY(_IO_gets_(bytes) ? atoi(bytes) : -1);
  FILE *f = _IO_fopen_("made.txt", "w+");
  SAY(_IO_setvbuf_(f, NULL, _IOFBF, 512));
  _IO_setbuffer_(f, NULL, 0);
  SAY(_IO_fputs_("12 one\n", f));
  SAY(_IO_fwrite_("two\n", 1, 4, f));
  SAY(_IO_fprintf_(f, "%d\n", 3) + prints(f, "%d\n", 4) + _IO_putc_('5', f));
  SAY(_IO_fflush_(f));
  rewind(f);
  SAY(_IO_fgetpos_(f, &at) + _IO_fgetpos64_(f, &at64));
  SAY(scans(f, "%d", &number) + number);
  SAY(_IO_fsetpos_(f, &at));
  SAY(_IO_fgets_(bytes, 10, f) ? atoi(bytes) : -1);
  SAY(_IO_fsetpos64_(f, &at64));
  SAY(_IO_ftell_(f));
  SAY(_IO_fread_(bytes, 1, 6, f));
  SAY(_IO_ungetc_('x', f));
  SAY(_IO_feof_(f) + _IO_ferror_(f));
  _IO_flockfile_(f);
  SAY(_IO_ftrylockfile_(f));
  _IO_funlockfile_(f);
  _IO_funlockfile_(f);
  SAY(_IO_fclose_(f));
  f = _IO_fdopen_(open("made.txt", O_RDWR), "r+");
  __backtrace_symbols_fd_(&here, 1, fileno(f));
  SAY(fclose(f));
  SAY(_IO_puts_("puts"));
  SAY(_IO_printf_("%s\n", "printf"));
}

int main(void) {
  int status = 0;
  descriptors();
  locks();
  processes();
  streams();
  SAY(unlink("made.txt"));
  fflush(stdout);
  pid_t one = __fork_();
  if (one == 0) _exit(3);
  SAY(one < 0 || (waitpid(one, &status, 0) == one && status == 3 << 8));
  pid_t two = __vfork_();
  if (two == 0) _exit(4);
  SAY(two < 0 || (waitpid(two, &status, 0) == two && status == 4 << 8));
  return 0;
}
