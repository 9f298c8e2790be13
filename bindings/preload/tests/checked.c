/* Calls on descriptors and names by the names that headers give them: checked ones, and those of large files. */
#define _GNU_SOURCE
#include "said.h"

#include <dirent.h>
#include <dlfcn.h>
#include <fcntl.h>
#include <glob.h>
#include <limits.h>
#include <poll.h>
#include <stdlib.h>
#include <sys/mman.h>
#include <sys/sendfile.h>
#include <sys/socket.h>
#include <sys/stat.h>
#include <sys/statvfs.h>
#include <sys/time.h>
#include <sys/uio.h>
#include <sys/vfs.h>
#include <sys/xattr.h>
#include <unistd.h>

int __open_2(const char *, int), __open64_2(const char *, int);
int __openat_2(int, const char *, int), __openat64_2(int, const char *, int);
int __poll_chk(struct pollfd *, nfds_t, int, size_t);
ssize_t __read_chk(int, void *, size_t, size_t), __pread_chk(int, void *, size_t, off_t, size_t);
ssize_t __pread64_chk(int, void *, size_t, off_t, size_t), __recv_chk(int, void *, size_t, size_t, int);
ssize_t __recvfrom_chk(int, void *, size_t, size_t, int, struct sockaddr *, socklen_t *);
ssize_t __readlink_chk(const char *, char *, size_t, size_t);
ssize_t __readlinkat_chk(int, const char *, char *, size_t, size_t);
char *__getcwd_chk(char *, size_t, size_t), *__realpath_chk(const char *, char *, size_t);

static char bytes[PATH_MAX];
static const char *volatile nothing;

static void opening(void) {
  SAY(__open_2("input.txt", O_RDONLY));
  SAY(__open64_2("none.txt", O_RDONLY));
  SAY(__openat_2(AT_FDCWD, "input.txt", O_RDONLY));
  SAY(__openat64_2(AT_FDCWD, "none.txt", O_RDONLY));
  SAY(__read_chk(3, bytes, 10, sizeof bytes));
  SAY(__pread_chk(3, bytes, 10, 4, sizeof bytes));
  SAY(__pread64_chk(3, bytes, 10, 100000, sizeof bytes));
  SAY(__poll_chk(&(struct pollfd){3, POLLIN, 0}, 1, 100, sizeof(struct pollfd)));
  SAY(fcntl64(3, F_GETFL) & O_ACCMODE);
  SAY(posix_fadvise64(3, 0, 0, POSIX_FADV_NORMAL));
  SAY(close(3));
  SAY(fcntl64(3, F_GETFD));
  closefrom(3);
}

static void large(void) {
  struct iovec parts[2] = {{bytes, 3}, {bytes + 10, 4}};
  int f = creat64("made.txt", 0640);
  SAY(f);
  SAY(close(f));
  f = open("made.txt", O_RDWR);
  SAY(ftruncate64(f, 5000));
  SAY(fallocate(f, 0, 0, 6000));
  SAY(fallocate64(f, 0, 0, 7000));
  TELL(posix_fallocate64(f, 0, 8000));
  SAY(lseek(f, 0, SEEK_END));
  SAY(pwritev64(f, parts, 2, 100));
  SAY(preadv64(f, parts, 2, 7998));
  SAY(syncfs(f));
  int from = open("input.txt", O_RDONLY);
  off64_t at = 3;
  SAY(lseek(f, 0, SEEK_SET));
  SAY(sendfile64(f, from, &at, 5));
  SAY(at);
  char *all = mmap64(NULL, 4096, PROT_READ, MAP_PRIVATE, f, 0);
  printf("%.5s\n", all == MAP_FAILED ? "failed" : all);
  SAY(truncate64("made.txt", 77));
  SAY(lseek(f, 0, SEEK_END));
  errno = 77;
  SAY(write(f, "x", 1));
  SAY(fchmod(f, 0600));
  SAY(errno);
  closefrom(3);
}

static void pairs(void) {
  int s[2];
  socklen_t length = 0;
  struct iovec part = {bytes, 10};
  struct msghdr message = {.msg_iov = &part, .msg_iovlen = 1};
  SAY(socketpair(AF_UNIX, SOCK_STREAM, 0, s));
  SAY(sendto(s[0], "abcdef", 6, 0, NULL, 0));
  SAY(__recv_chk(s[1], bytes, 2, sizeof bytes, 0));
  SAY(recvfrom(s[1], bytes, 2, 0, NULL, NULL));
  SAY(__recvfrom_chk(s[1], bytes, 2, sizeof bytes, 0, NULL, &length));
  SAY(recv(s[1], bytes, 1, MSG_DONTWAIT));
  SAY(fcntl(s[1], F_GETFL) & O_NONBLOCK);
  SAY(send(s[0], "gh", 2, 0));
  SAY(recvmsg(s[1], &message, 0));
  closefrom(3);
}

static void show(const char *what, int failed, const struct stat *s) {
  if (failed) said(what, -1);
  else printf("%s: mode %o size %ld\n", what, s->st_mode, S_ISDIR(s->st_mode) ? 0 : (long)s->st_size);
}
#define SHOW(call) show(#call, call, (struct stat *)&s)

/* Old programs have these names, which a new one does not link to. */
#define OLD(name, given) ((int(*) given)dlsym(RTLD_DEFAULT, name))
typedef struct stat *to;
static void old(int f) {
  struct stat s;
  SHOW(OLD("__xstat", (int, const char *, to))(1, "made.txt", &s));
  SHOW(OLD("__lxstat", (int, const char *, to))(1, "link.txt", &s));
  SHOW(OLD("__fxstat", (int, int, to))(1, f, &s));
  SHOW(OLD("__fxstatat", (int, int, const char *, to, int))(1, AT_FDCWD, "none.txt", &s, 0));
  SHOW(OLD("__xstat64", (int, const char *, to))(1, "made.txt", &s));
  SHOW(OLD("__lxstat64", (int, const char *, to))(1, "link.txt", &s));
  SHOW(OLD("__fxstat64", (int, int, to))(1, f, &s));
  SHOW(OLD("__fxstatat64", (int, int, const char *, to, int))(1, AT_FDCWD, "made.txt", &s, 0));
}

static void timing(int f) {
  struct stat64 s;
  struct timespec times[2] = {{12345, 0}, {12345, 0}};
  struct timeval micros[2] = {{23456, 0}, {23456, 0}};
  SAY(futimens(f, times));
  SAY(fstat64(f, &s) + s.st_mtim.tv_sec);
  SAY(futimes(f, micros));
  SAY(fstat64(f, &s) + s.st_mtim.tv_sec);
  SAY(lutimes("link.txt", micros));
  SAY(lstat64("link.txt", &s) + s.st_mtim.tv_sec);
}

static void asking(void) {
  struct stat64 s;
  struct statx x;
  struct statfs64 t;
  struct statvfs64 v;
  int f = open("made.txt", O_RDWR);
  SAY(symlink("made.txt", "link.txt"));
  old(f);
  timing(f);
  SHOW(stat64("made.txt", &s));
  SHOW(lstat64("link.txt", &s));
  SHOW(fstat(f, (struct stat *)&s));
  SHOW(fstat64(f, &s));
  SHOW(fstatat64(AT_FDCWD, "none.txt", &s, 0));
  SAY(statx(AT_FDCWD, nothing, 0, STATX_BASIC_STATS, &x));
  SAY(fchownat(AT_FDCWD, "made.txt", (uid_t)-1, (gid_t)-1, 0));
  SAY(eaccess("made.txt", R_OK));
  SAY(euidaccess("none.txt", R_OK));
  SAY(statfs64(".", &t) + fstatfs64(f, &t) + fstatfs(f, (struct statfs *)&t));
  SAY(statvfs64(".", &v) + fstatvfs64(f, &v) + fstatvfs(f, (struct statvfs *)&v));
  SAY(fgetxattr(f, "user.none", bytes, 10));
  SAY(lgetxattr("link.txt", "user.none", bytes, 10) < 0);
  SAY(listxattr("made.txt", bytes, 100));
  SAY(llistxattr("link.txt", bytes, 100));
  SAY(flistxattr(f, bytes, 100));
  SAY(readlink("link.txt", bytes, 3));
  SAY(mknod("pipe", S_IFIFO | 0600, 0));
  SAY(__readlink_chk("link.txt", bytes, 10, sizeof bytes));
  SAY(__readlinkat_chk(AT_FDCWD, "made.txt", bytes, 10, sizeof bytes));
  SAY(__getcwd_chk(bytes, sizeof bytes, sizeof bytes) != NULL);
  char *here = get_current_dir_name(), *one = canonicalize_file_name("link.txt");
  char *two = __realpath_chk("made.txt", bytes, PATH_MAX);
  SAY(here && one && two && !strncmp(here, one, strlen(here)) && !strcmp(one, two));
  closefrom(3);
}

static int dots(const struct dirent64 *it) { return it->d_name[0] != '.'; }
static void reading(void) {
  struct dirent64 **list, entry, *found = NULL;
  struct dirent plain, *next = NULL;
  int n = scandir64(".", &list, dots, alphasort64), count = 0, here = open(".", O_RDONLY | O_DIRECTORY);
  for (int i = 0; i < n; i++) printf("%s %d %d\n", list[i]->d_name, list[i]->d_type, list[i]->d_reclen != 0);
  DIR *d = fdopendir(dup(here));
  SAY(d != NULL);
#pragma GCC diagnostic push
#pragma GCC diagnostic ignored "-Wdeprecated-declarations"
  TELL(readdir64_r(d, &entry, &found));
  SAY(found == &entry);
  TELL(readdir_r(d, &plain, &next));
  SAY(next == &plain && strcmp(plain.d_name, entry.d_name) != 0);
#pragma GCC diagnostic pop
  for (struct dirent64 *it; (it = readdir64(d)) != NULL;) count += it->d_reclen != 0;
  SAY(count == n);
  SAY(closedir(d));
  closefrom(3);
}

static void matching(void) {
  glob_t g;
  glob64_t h;
  SAY(glob("*t.t*", 0, NULL, &g));
  for (size_t i = 0; i < g.gl_pathc; i++) printf("%s\n", g.gl_pathv[i]);
  SAY(glob64("../*/input.txt", GLOB_MARK, NULL, &h));
  SAY(h.gl_pathc != 0);
  SAY(glob("none*", 0, NULL, &g) == GLOB_NOMATCH);
  globfree64(&h);
}

static void chosen_names(void) {
  char one[] = "new-XXXXXX", two[] = "new-XXXXXX", three[] = "new-XXXXXX";
  char four[] = "new-XXXXXX.c", five[] = "new-XXXXXX.c";
  SAY(mkostemp(one, O_APPEND) > 2);
  SAY(mkostemp64(two, 0) > 2);
  SAY(mkstemp64(three) > 2);
  SAY(mkstemps(four, 2) > 2);
  SAY(mkstemps64(five, 2) > 2);
  SAY(unlink(one) + unlink(two) + unlink(three) + unlink(four) + unlink(five));
  strcpy(four, "new-XXXXXX.c");
  SAY(mkostemps64(four, 2, 0) > 2);
  SAY(unlink(four));
  closefrom(3);
}

int main(void) {
  setvbuf(stdout, NULL, _IOFBF, 65536);
  umask(022);
  opening();
  large();
  pairs();
  asking();
  reading();
  matching();
  chosen_names();
  SAY(unlink("pipe") + unlink("link.txt") + unlink("made.txt"));
  return 0;
}
