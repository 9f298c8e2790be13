/* What changes files of the host: a rerun changes none, though they are there. */
#define _GNU_SOURCE
#include "said.h"

#include <fcntl.h>
#include <sys/stat.h>
#include <unistd.h>

int main(void) {
  char bytes[100000] = {0};
  int f = open("input.txt", O_RDWR | O_APPEND);
  SAY(write(f, "more\n", 5));
  SAY(write(f, bytes, sizeof bytes));
  SAY(ftruncate(f, 20));
  SAY(close(f));
  SAY(chmod("input.txt", 0600));
  SAY(truncate("input.txt", 10));
  SAY(link("input.txt", "other.txt"));
  SAY(rename("other.txt", "third.txt"));
  SAY(unlink("third.txt"));
  SAY(mkdir("made", 0700));
  SAY(rmdir("made"));
  SAY(open("input.txt", O_WRONLY | O_TRUNC));
  SAY(unlink("input.txt"));
  return 0;
}
