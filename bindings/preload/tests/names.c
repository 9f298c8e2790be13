/* Calls on names: a line for each, as the kernel has it. */
#define _GNU_SOURCE
#include "said.h"

#include <dirent.h>
#include <fcntl.h>
#include <limits.h>
#include <stdlib.h>
#include <sys/stat.h>
#include <sys/statvfs.h>
#include <sys/time.h>
#include <sys/vfs.h>
#include <sys/xattr.h>
#include <unistd.h>
#include <utime.h>

static void show(const char *what, int failed, const struct stat *s) {
  if (failed) said(what, -1);
  else printf("%s: mode %o size %ld links %ld time %d\n", what, s->st_mode, S_ISDIR(s->st_mode) ? 0 : (long)s->st_size,
              S_ISDIR(s->st_mode) ? 0 : (long)s->st_nlink, s->st_mtim.tv_sec == 12345);
}
#define SHOW(call) show(#call, call, &s)

static void making(void) {
  SAY(mkdir("room", 0755));
  SAY(mkdir("room", 0755));
  SAY(mkdirat(AT_FDCWD, "room/inner", 0700));
  int fd = open("room/file.txt", O_WRONLY | O_CREAT, 0644);
  SAY(write(fd, "text", 4));
  SAY(close(fd));
  SAY(link("room/file.txt", "room/other.txt"));
  SAY(symlink("file.txt", "room/link.txt"));
  SAY(rename("room/other.txt", "room/third.txt"));
  SAY(rename("room/none.txt", "room/third.txt"));
  SAY(renameat2(AT_FDCWD, "room/file.txt", AT_FDCWD, "room/third.txt", RENAME_NOREPLACE));
  SAY(linkat(AT_FDCWD, "room/file.txt", AT_FDCWD, "room/fourth.txt", 0));
  SAY(mkfifo("room/fifo", 0600));
  SAY(truncate("room/fourth.txt", 2));
}

static void asking(void) {
  struct stat s;
  struct statx x;
  struct statfs f;
  struct statvfs v;
  struct timespec times[2] = {{12345, 0}, {12345, 0}};
  char text[PATH_MAX] = {0};
  SAY(utimensat(AT_FDCWD, "room/file.txt", times, 0));
  SHOW(stat("room/file.txt", &s));
  SHOW(lstat("room/link.txt", &s));
  SHOW(stat("room/link.txt", &s));
  SHOW(stat("room/none", &s));
  SHOW(fstatat(AT_FDCWD, "room/link.txt", &s, AT_SYMLINK_NOFOLLOW));
  SAY(statx(AT_FDCWD, "room/file.txt", 0, STATX_BASIC_STATS, &x));
  SAY(x.stx_size);
  SAY(chmod("room/file.txt", 0600));
  SAY(fchmodat(AT_FDCWD, "room/file.txt", 0640, 0));
  SHOW(stat("room/file.txt", &s));
  SAY(chown("room/file.txt", (uid_t)-1, (gid_t)-1));
  SAY(lchown("room/link.txt", (uid_t)-1, (gid_t)-1));
  SAY(utime("room/third.txt", &(struct utimbuf){1, 12345}));
  SHOW(stat("room/third.txt", &s));
  SAY(utimes("room/third.txt", NULL));
  SAY(access("room/file.txt", R_OK));
  SAY(access("room/none.txt", F_OK));
  SAY(faccessat(AT_FDCWD, "room", X_OK, 0));
  SAY(readlink("room/link.txt", text, sizeof text));
  SAY(readlink("room/file.txt", text, sizeof text));
  SAY(statfs(".", &f));
  SAY(statvfs(".", &v));
  SAY((long)v.f_bsize == f.f_bsize);
  SAY(getxattr("room/file.txt", "user.none", text, 10));
}

static int dots(const struct dirent *it) { return it->d_name[0] != '.'; }
static void reading(void) {
  struct dirent **list;
  int n = scandir("room", &list, dots, alphasort);
  for (int i = 0; i < n; i++) printf("%s %d\n", list[i]->d_name, list[i]->d_type);
  DIR *d = opendir("room");
  int count = 0;
  while (readdir(d)) count++;
  printf("%d\n", count);
  rewinddir(d);
  SAY(readdir(d) != NULL);
  long at = telldir(d);
  struct dirent *second = readdir(d);
  char name[256];
  strcpy(name, second->d_name);
  seekdir(d, at);
  SAY(strcmp(readdir(d)->d_name, name));
  SAY(dirfd(d) > 2);
  SAY(closedir(d));
  SAY(opendir("room/file.txt") == NULL);
  said("opendir", -1);
}

/* More names than one answer has, each removed once it is read. */
static void emptying(void) {
  char path[128];
  SAY(mkdir("many", 0700));
  for (int i = 0; i < 500; i++) {
    snprintf(path, sizeof path, "many/%060d", i);
    close(open(path, O_WRONLY | O_CREAT, 0600));
  }
  DIR *d = opendir("many");
  int count = 0;
  for (struct dirent *it; (it = readdir(d)) != NULL;) {
    snprintf(path, sizeof path, "many/%.100s", it->d_name);
    if (dots(it)) count += unlink(path) == 0;
  }
  SAY(closedir(d));
  SAY(count);
  SAY(rmdir("many"));
  SAY(realpath("input.txt/", NULL) == NULL);
}

static void from_a_directory(void) {
  char here[PATH_MAX], *path, *other;
  struct stat s;
  int room = open("room", O_RDONLY | O_DIRECTORY);
  SAY(openat(room, "file.txt", O_RDONLY));
  SHOW(fstatat(room, "file.txt", &s, 0));
  SHOW(fstatat(room, "", &s, AT_EMPTY_PATH));
  SAY(faccessat(room, "none", F_OK, 0));
  SAY(renameat(room, "third.txt", room, "fifth.txt"));
  SAY(symlinkat("fifth.txt", room, "sixth.txt"));
  SAY(readlinkat(room, "sixth.txt", here, sizeof here));
  SAY(unlinkat(room, "fifth.txt", 0));
  SAY(unlinkat(room, "inner", AT_REMOVEDIR));
  path = realpath("room/../room/link.txt", NULL);
  SAY(fchdir(room));
  other = realpath("file.txt", NULL);
  SAY(path && other ? strcmp(path, other) : -1);
  SAY(realpath("none", here) == NULL);
  SAY(getcwd(here, sizeof here) != NULL);
  printf("%s\n", strrchr(here, '/'));
  SAY(chdir(".."));
  SAY(chdir("none"));
  DIR *d = fdopendir(room);
  SAY(d != NULL);
  SAY(closedir(d));
  SAY(close(room));
}

static void chosen_names(void) {
  char one[] = "room/new-XXXXXX", two[] = "room/dir-XXXXXX", three[] = "room/new-XXXXXX.txt", bad[] = "room/bad";
  int fd = mkstemp(one);
  SAY(fd >= 0 && strcmp(one, "room/new-XXXXXX") != 0);
  SAY(unlink(one));
  SAY(mkdtemp(two) != NULL);
  SAY(rmdir(two));
  SAY(mkostemps(three, 4, O_APPEND) >= 0);
  SAY(remove(three));
  SAY(mkstemp(bad));
}

int main(void) {
  setvbuf(stdout, NULL, _IOFBF, 65536);
  umask(022);
  making();
  asking();
  reading();
  emptying();
  from_a_directory();
  chosen_names();
  SAY(rmdir("room"));
  SAY(system("rm -r room"));
  return 0;
}
