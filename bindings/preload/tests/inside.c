/* Names below /run, which live in the run alone: it ends with how many things were not so. */
#define _GNU_SOURCE
#include <dirent.h>
#include <errno.h>
#include <fcntl.h>
#include <limits.h>
#include <stdio.h>
#include <stdlib.h>
#include <sys/stat.h>
#include <unistd.h>

static int wrong;
static void must(const char *what, int holds) {
  if (!holds) wrong++, printf("not so: %s (%d)\n", what, errno);
}
#define MUST(what) must(#what, what)
#define FAILS(call, error) must(#call, (call) == -1 && errno == error)

static void files(void) {
  char bytes[100];
  struct stat s;
  int f = open("/run/file", O_RDWR | O_CREAT | O_EXCL, 0600);
  MUST(f >= 0);
  FAILS(open("/run/file", O_RDWR | O_CREAT | O_EXCL, 0600), EEXIST);
  MUST(write(f, "0123456789", 10) == 10);
  MUST(pread(f, bytes, sizeof bytes, 4) == 6 && bytes[0] == '4');
  MUST(lseek(f, -2, SEEK_END) == 8 && read(f, bytes, 100) == 2 && bytes[1] == '9');
  MUST(!ftruncate(f, 3) && !fstat(f, &s) && s.st_size == 3 && S_ISREG(s.st_mode));
  MUST(!stat("/run/file", &s) && s.st_size == 3 && s.st_nlink == 1);
  MUST(!fsync(f) && !fchmod(f, 0600) && !isatty(f));
  MUST(!close(f) && !access("/run/file", R_OK) && !chmod("/run/file", 0600));
  FAILS(access("/run/none", R_OK), ENOENT);
  FAILS(open("/run/file/below", O_RDONLY), ENOTDIR);
}

static void names(void) {
  struct stat s;
  char path[PATH_MAX];
  MUST(!mkdir("/run/room", 0700));
  FAILS(mkdir("/run/room", 0700), EEXIST);
  MUST(!stat("/run/room", &s) && S_ISDIR(s.st_mode));
  MUST(!link("/run/file", "/run/room/other") && !stat("/run/file", &s) && s.st_nlink == 2);
  MUST(!rename("/run/file", "/run/room/moved"));
  FAILS(stat("/run/file", &s), ENOENT);
  FAILS(rmdir("/run/room"), ENOTEMPTY);
  FAILS(rename("/run/room/moved", "moved.txt"), EXDEV);
  FAILS(symlink("file", "/run/link"), EPERM);
  FAILS(truncate("/run/room/moved", 1), EPERM);
  FAILS((int)readlink("/run/room/moved", path, sizeof path), EINVAL);
  MUST(!opendir("/run/room") && errno == ENOSYS);
  MUST(pathconf("/run/room", _PC_NAME_MAX) == 14);
  FAILS(pathconf("/run/room/moved", _PC_LINK_MAX), EINVAL);
  MUST(!unlink("/run/room/moved") && !remove("/run/room/other") && !remove("/run/room"));
}

int main(int count, char **words) {
  struct stat s;
  (void)words;
  if (count > 1) {
    MUST(!stat("/dev/null", &s) && S_ISCHR(s.st_mode)); /* below /dev/nul is something else */
  } else {
    files();
    names();
  }
  printf("%d\n", wrong);
  return wrong;
}
