#include <stdio.h>
static int add();
int twice(int);
int add(a, b)
int a; char b;
{ return a + b; }
int twice(c) short c; { return 2 * c; }
label(s, n) const char *s; { printf("%s %d\n", s, n); return n; }
unsigned char low(c, at, list) unsigned char c, list[]; int at; { return c + list[at]; }
main(argc, argv) char **argv; {
  unsigned char list[] = { 1, 2, 250 };
  int n, many = 300;
  n = add(1, many);
  many += 211;
  return label("x", n) + twice(70000) + low(many, 2, list);
}
