#include <stdio.h>

int first;
int second = 2;

int main(void)
{
    first = 1 + 2 + 3;
    putchar((((65))));
    if (first) { ; } else if (second) { ; } /* nested */
    return 0;
}
