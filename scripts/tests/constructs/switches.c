#include <stdio.h>
enum kind { A, B, C };
static int deep(int c, int again) {
  int n = 0;
  switch (c) {
    default: n += 1;
    case 'a': if (again) { case 'b': n += 10; } else { n += 100; case 'c': n += 1000; break; }
    case 'd': { int k = 3; n += k; }
  }
  return n;
}
static int plain(enum kind k) { switch (k) case B: return 5; switch (k) { case A: case C: return k; } return -1; }
static int loop(int c) { int n = 0; for (int i = 0; i < 5; i++) { switch (c + i) { case 'b': continue; case 'd': break; default: n++; } n += 10; } return n; }
int main(void) {
  for (int c = 'a'; c < 'f'; c++) printf("%d %d %d\n", deep(c, 0), deep(c, 1), loop(c));
  unsigned char u = 200; switch (u) { case 200: puts("200"); break; case 'a': puts("a"); }
  return plain(A) + plain(B) * 10 + plain(C) * 100;
}
