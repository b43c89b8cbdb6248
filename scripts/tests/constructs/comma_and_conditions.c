#include <stdio.h>
static int calls;
static int ask(int x) { calls++; printf("<%d>", x); return x > 2; }
static int next(void) { int c; return (c = getchar()) == ' ' ? 0 : c; }
int main(void) {
  int i, j, c, n = 0;
  for (i = 0, j = 9; i < j && ask(i + 3); i++, j -= 2) { if (i == 2) continue; n += j; }
  printf(" %d %d %d\n", i, j, n);
  if (ask(1) && ask(5)) n = 1; else n = 2;
  if (ask(1) || ask(5)) n += 10; else n += 20;
  if (ask(3) && ask(4) && n > 0 && ask(5)) n += 100;
  n += ask(0) ? ask(7) : ask(8) ? 3 : ask(9);
  printf(" %d %d\n", n, calls);
  i = (j = 3, j + 1); if (i++, i == 5) printf("five ");
  while (c = next(), c != -1 && c != '!') { if (c == 0) continue; putchar(c); }
  do { n--; } while (n > 120 && ask(n));
  while (ask(2) || n < 112) { n++; if (n == 111) break; }
  i = !(ask(3) && !ask(1)); j = ask(6) && ask(2); printf(" %d %d\n", i, j);
  return ask(3) ? (n > 0 && ask(9)) + 4 : 0;
}
