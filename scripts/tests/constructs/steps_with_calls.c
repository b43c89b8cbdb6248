#include <stdio.h>
static int n;
static int next(void) { return n += 3; }
static int is_big(int x) { return x > 20; }
int main(void) {
  int k = 0, total = 0;
  for (int i = 0; i < 30; i = k > 2 && is_big(i) ? i + 2 : i + next() % 4 + 1, k++) {
    if (i % 5 == 0) continue;
    { int k = i; if (k == 11) { total += 100; continue; } }
    total += i;
    if (total > 400) break;
  }
  do { total--; if (total % 7 == 3) break; } while (total > 300 || is_big(total));
  while (next() < 90 && !(total > 1000 && is_big(total))) { if (n % 2) continue; total += n; }
  printf("%d %d %d\n", n, k, total);
  return total & 127;
}
