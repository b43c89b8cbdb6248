#include <stdio.h>
static int n;
static int next(void) { return ++n; }
static int pure(int x) { return x * 2; }
static int apply(int a, int b) { return a * 10 + b; }
int main(void) {
  int a[5] = { 0 }, i = 0, x;
  a[i++] = next(); a[i] = pure(i) + pure(i + 1); x = apply(next(), pure(3)); x += pure(2);
  i = a[0] + (x > 0 && pure(x) > 3) * 5; int y = pure(x > 1 ? pure(1) : 2), z = y + 1;
  printf("%d %d %d %d %d\n", a[0], a[1], x, i, z);
  (void)next(); (void)x; next(), next();
  return n + (unsigned char)pure(200);
}
