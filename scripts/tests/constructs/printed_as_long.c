#include <stdio.h>
#include <string.h>
static unsigned char byte = 200;
int main(void)
{
    int n = -5;
    unsigned u = 4000000000u;
    size_t size = 12;

    printf("%ld %5ld|%lu %lu %ld\n", (long)n, (long)(n * 2), (unsigned long)u, (unsigned long)strlen("four"), (long)byte);
    printf("%lu %lx %-8lu|%lld\n", (unsigned long)size, (unsigned long)u, (unsigned long)byte, (long long)n);
    return 0;
}
