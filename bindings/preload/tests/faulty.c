/* Ten calls that can fail, each after another, and which of them fail. */
#include <errno.h>
#include <fcntl.h>
#include <stdio.h>
#include <sys/stat.h>
#include <unistd.h>

static void fails(int number, long result) {
  if (result < 0) printf("%d %d\n", number, errno == EIO);
}

int main(void) {
  char bytes[8];
  struct stat s;
  int f = open("input.txt", O_RDONLY);
  fails(1, f);
  for (int i = 2; f >= 0 && i < 7; i++) fails(i, read(f, bytes, sizeof bytes));
  if (f >= 0) {
    fails(7, pread(f, bytes, sizeof bytes, 4));
    fails(8, fstat(f, &s));
    fails(9, access("input.txt", R_OK));
    fails(10, mkdir("made", 0700));
  }
  return 0;
}
