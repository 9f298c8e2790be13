/* opens FILE: what reads of the standard numbers give, and which number an opening has, written into FILE. */
#include <errno.h>
#include <fcntl.h>
#include <stdio.h>
#include <string.h>
#include <unistd.h>

int main(int count, char **words) {
  char bytes[8], line[200];
  int length = 0;
  for (int fd = 0; fd < 3; fd++) {
    long n = fd ? write(fd, "", 0) : read(fd, bytes, 1);
    length += snprintf(line + length, sizeof line - (size_t)length, "%ld %d\n", n, n < 0 ? errno : 0);
  }
  int f = open(count > 1 ? words[1] : "opens.txt", O_WRONLY | O_CREAT | O_TRUNC, 0600);
  length += snprintf(line + length, sizeof line - (size_t)length, "%d\n", f);
  return write(f, line, (size_t)length) == length ? 0 : 1;
}
