#include <stdio.h>
int main(void) { long n = 0;
#pragma omp parallel for reduction(+ : n)
for (int i = 0; i < 100000; i++) n += i; printf("%ld\n", n); }
