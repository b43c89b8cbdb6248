/* What first.c and second.c have in common: an obstacle of it is told once. */
#ifndef ALL_H
#define ALL_H

union number {
    int whole;
    unsigned bits;
};

struct flags {
    unsigned ready : 1;
    int count;
};

struct point {
    int x, y;
};

#define HALF 0.5
#define LAST(text) text[strlen(text) - 1]

extern int elsewhere;
int somewhere(int n);
int count_of(char *text);

#endif
