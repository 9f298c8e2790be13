#include <stdio.h>
int main(void) { char l[99]; int n = 0; while (fgets(l, 99, stdin)) n += l[0];
printf("%d\n", n); }
