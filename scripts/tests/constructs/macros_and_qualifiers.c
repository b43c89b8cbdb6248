#include <stdio.h>
#define SQUARE(x) ((x) * (x))
#ifdef NEVER
int broken = ;
#endif
static inline int twice(const int x) { register int y = x; volatile int z = y; return z + y; }
extern int shared;
int shared = 5;
static const int table[] = { 1, 2, 3, };
int main(void) { printf("%d %d %d\n", SQUARE(3 + 1), twice(4), table[2] + shared); return 0; }
