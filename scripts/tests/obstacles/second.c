/* Obstacles of expressions and statements. */
#include <stdio.h>
#include <string.h>
#include "all.h"

static int state;
static unsigned char bytes[4];
static char word[8];
static char other[8];

static int step(void)
{
    return ++state;
}

static struct point origin(void)
{
    struct point made = {0, 0};

    return made;
}

int count_of(char *text)
{
    int n = 0;

    while (text[n] != '\0')
        text[n++] = ' ';
    return n;
}

int numbers_of(int n)
{
    float part = n;

    n = n * HALF;
    if (n > 5000000000)
        n = 1;
    n = strlen(word) * 2;
    n = strlen(word) - 1 >> 1;
    return n;
}

int addresses(char *one, char *two)
{
    char *where = &one[1];

    if (one == two)
        return 1;
    where = two;
    return where - one;
}

int orders(int n)
{
    n = state + step();
    printf("%d %c\n", count_of(word), word[0]);
    bytes[n++] /= 2;
    n = (n > 1 ? origin() : origin()).x;
    return n;
}

int loops(int n)
{
    do {
        if (n == 4)
            continue;
        n--;
    } while (step() < 5 && step() > n);
    return n;
}

int others(int n)
{
    int exit = 2;
    int many[n];
    const char *chosen = n > 1 ? word : other;
    struct {
        int a;
        union number b;
    } pair;

    n = strlen(n > 1 ? "one" : "two");
    pair.a = many[0] + LAST(chosen);
    return n + exit;
}

int literal_of(int n)
{
    return n + (int){1};
}

int old(a, b)
int a, b;
{
    return a + b;
}

int others_of(int (handler)(int))
{
    int wide[] = L"wide";

    return old(wide[0]) + L'w';
}
