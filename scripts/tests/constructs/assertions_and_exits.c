#include <assert.h>
#include <stdio.h>
#include <stdlib.h>
static int check(int c) { assert(c != 'x'); if (c == 'y') exit(EXIT_FAILURE + 2); if (c == 'z') abort(); return c; }
int main(void) { int c = check(getchar()); assert(c && "text"); putchar(c); return EXIT_SUCCESS; }
