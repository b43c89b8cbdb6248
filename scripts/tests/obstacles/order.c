/* Lines with the comment "order" have a call that may write what is read or written beside it, and C leaves it open which
   comes first. The others mean the same in any order that C allows. */
#include <stdio.h>
#include <string.h>

static int a[4];
static int n;
static char s[8];
static struct pair { int x, y; } p, q;

static int set(int i) { a[i] = 1; return i; }
static int first(const int v[]) { return v[0]; }
static int bump(void) { return n++; }
static int len(char *t) { int k = 0; while (*t) { k++; t++; } return k; }
static int cut(char *t) { t[0] = 0; return 1; }
static int wipe(char *t) { char *end = t + 3; *end = 0; return 1; }
static int wipe_found(void) { char *found = strchr(s, 'x'); if (found != NULL) *found = 0; return 1; }
static int use(int x, const int v[], int y) { return x + v[0] + y; }
static int both(struct pair one, int x) { return one.x + x; }
static int shift(struct pair *one) { one->x++; return 1; }
static int say(void) { putchar('s'); return 1; }
static int read(void) { return getchar(); }
static char *here = s;
static int step(void) { here++; return 1; }
static int mark(void) { *here = 1; return 1; }
static int twice(int x) { return x < 1 ? 0 : twice(x - 1) + 2; }

int main(void)
{
    int x, y = 0;

    x = use(1, a, set(2));
    x = a[0] + set(1);                  /* order */
    x = first(a) + set(1);              /* order */
    x = use(n, a, bump());              /* order */
    x = a[bump()] + 1;
    a[n] = bump();                      /* order */
    printf("%s %d\n", s, len(s));
    printf("%s %d\n", s, cut(s));
    printf("%d %d\n", s[0], cut(s));    /* order */
    x = len(s) + cut(s);                /* order */
    x += bump();
    n += bump();                        /* order */
    x = bump() + bump();                /* order */
    x = bump() && bump();
    x = bump() ? bump() : bump() + y;
    x = s[1] + wipe(s);                 /* order */
    x = s[1] + wipe_found();            /* order */
    x = twice(y) + twice(y + 1) * x;
    x = both(p, shift(&p));             /* order */
    x = both(p, shift(&q));
    x = say() + say();                  /* order */
    x = say() + read();
    x = read() - getchar();             /* order */
    x = (bump(), n) + y;
    x = y + (y > 0 ? bump() : 2);
    x = n + (y > 0 ? bump() : 2);       /* order */
    x = n + (y > 0 && bump());          /* order */
    x = *here + step();                 /* order */
    x = len(here) + step();             /* order */
    x = s[0] + mark();                  /* order */
    x = n + step();
    return bump() < 3 && n > 1;
}
