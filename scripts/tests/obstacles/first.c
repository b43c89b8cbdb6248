/* Obstacles of declarations, and of calls of the library. */
#include <stdio.h>
#include <stdlib.h>
#include <string.h>
#include <time.h>
#include "all.h"

double ratio;
long total;
unsigned long mask;
int *cursor;
const char *const names[] = {"one", "", NULL};
int (*handler)(int);
int lengths[2] = {1, sizeof(int)};
int dated = sizeof(__DATE__);
char text[20] = "text";

static int numbers[4];
static int count;

char *name_of(int n)
{
    return n > 0 ? text : NULL;
}

int sum(int n, ...)
{
    return n;
}

int trace_of(int **matrix)
{
    return matrix[0][0];
}

void memory(int n)
{
    char *made = malloc(n);

    free(made);
}

void writing(int n)
{
    FILE *out = fopen("out", "w");

    fprintf(stderr, "%d\n", n);
    fprintf(out, "%d\n", n);
    printf("%d %p\n", n, text);
    printf("%g\n", HALF);
    printf(text);
    n = printf("%s\n", text);
}

void reading(int n)
{
    scanf("%d %s", &n, text);
    n = getc(stdin) + feof(stdin);
}

void calling(void)
{
    count = rand();
    count = somewhere(1) + elsewhere;
    count = handler(2);
    memset(&numbers[1], 0, 7);
    memcpy(numbers, text, 4);
    count = (int)time(NULL);
}

int main(int argc, char **argv)
{
    return argc;
}

typedef struct {
    int width;
} __attribute__((packed)) packet;

static packet last;

static int width_of(packet *one)
{
    return one->width + last.width;
}

static int kind_of(int n)
{
    switch (n) {
    case 1 ... 3:
        return (int)(n * HALF);
    default:
        return width_of(&last);
    }
}

static const int most = 5;
static int limit = most;

struct table {
    int count;
    int values[];
};

int sums(unsigned n)
{
    return (int)(total + n) + kind_of(limit);
}

int names_of(void)
{
    int n = 0;

    while (names[n] != NULL)
        n++;
    return n;
}
