#include <err.h>
#include <stdio.h>
#include <stdlib.h>
static int n;
static int next(void) { return ++n; }
int main(void) {
    int c = getchar();
    if (c == 'w') warnx("got %d", next());
    if (c == 'v') warn(NULL);
    if (c == 'e') err(next() + 2, "got %c %d", c, 1);
    if (c == 'x') errx(EXIT_FAILURE, "x");
    if (ferror(stdin) || fflush(stdout) == EOF || ferror(stdout)) return 9;
    printf("%d\n", n);
    return fflush(stdout) + 4;
}
