#include <stdio.h>
static __inline__ int twice(int n) __attribute__((unused));
static __inline__ int twice(int n) { return 2 * n; }
static __inline int thrice(__const int n) { return 3 * n; }
extern void die(const char *__restrict text, ...) __attribute__ ((__format__ (__printf__, 1, 2),
    noreturn));
int main(void)
{
    __extension__ int x __attribute__((unused)) = twice(2) + thrice(1);
    __volatile__ int y = x;
    puts("__attribute__((unused)) __inline");
    switch (y) {
    case 7:
        x++;
        __attribute__((fallthrough));
    default:
        x++;
    }
    return x;
}
