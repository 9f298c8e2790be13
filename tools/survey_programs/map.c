#include <stdio.h>
#include <fcntl.h>
#include <sys/mman.h>
int main(void) { char *p = mmap(0, 9000, 1, 2,
open("data.txt", 0), 0); printf("%.40s\n", p + 5000); }
