#include <stdio.h>
int main(void) {
  int n, sum = 0, a, b, numbers[3];
  if (scanf("%d", &n) != 1) { puts("none"); return 1; }
  while (n-- > 0 && scanf("%d", &numbers[n % 3]) == 1) sum += numbers[n % 3];
  int got = scanf("%d %d", &a, &b);
  printf("%d %d\n", sum, got);
  int c = getchar(); printf("%d\n", c);
  ungetc('x', stdin); putchar(getchar());
  return 0;
}
