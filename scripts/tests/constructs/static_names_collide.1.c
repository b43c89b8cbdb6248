#include <stdio.h>
static int count = 1;
static int step(void) { static int calls; calls++; count += 2; return calls; }
int other(void);
int main(void) { step(); printf("%d\n", step()); printf("%d\n", count); printf("%d\n", other()); return other(); }
