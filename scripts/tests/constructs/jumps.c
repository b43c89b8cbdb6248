#include <stdio.h>
int main(void) {
  int n = 0, i, j;
again:
  if (n++ < 3) goto again;
  for (i = 0; i < 4; i++) for (j = 0; j < 4; j++) if (i * j == 6) goto out;
out:
  printf("%d %d %d\n", n, i, j);
  for (int a = 0, b = 10; a < b; a++, b--) { if (a == 2) continue; if (b == 6) break; printf("%d ", b - a); }
  for (;;) { if (n > 8) break; n += 2; }
  { int n = 100; n++; printf("%d\n", n); }
  int n2 = n; while (n2 --> 0); do n2++; while (n2 < 3); ;
  if (n) ; else puts("never");
  return n2;
}
