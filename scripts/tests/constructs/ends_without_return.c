#include <stdio.h>
#include <stdlib.h>
static int say(int n) { printf("%d\n", n); }
static int some(int n) { if (n > 1) return 5; puts("small"); }
static int sign(int n) { if (n < 0) return -1; else if (n > 0) return 1; else return 0; }
static int kind(int c) { switch (c) { case 'a': return 1; case 'b': case 'c': return 2; default: return 3; } }
static int endless(int n) { for (;;) { if (n > 5) return n; n++; } }
static int broken(int n) { while (1) { if (n > 5) break; n++; } }
static int last(int n) { if (n) return 1; exit(7); }
int main(void)
{
    say(3);
    some(0);
    broken(2);
    printf("%d %d %d %d\n", sign(-4), kind('b'), endless(1), last(1));
    return last(0);
}
