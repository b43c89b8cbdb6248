#include <stdio.h>
#include <stdint.h>
static long total; static int64_t big = 100000;
int main(void) {
  long n = 0; int count = 0; long long m = -5;
  fprintf(stderr, "dropped %d\n", ++count); fputs("x", stderr); putc('c', stderr); perror("p");
  for (n = 0; n < 5L; n++) total += n;
  printf("%ld %lld %5ld %d\n", total, m, big, count); if (m < 0 && big > 5) puts("ok");
  return (int)n;
}
