#include <stdio.h>
#include <string.h>
static char buffer[32]; static size_t length;
static size_t put(const char *s, size_t most) { size_t n = strlen(s); if (n > most - length) n = most - length; memcpy(&buffer[length], s, n); length += n; return n; }
int main(void) {
  size_t i = 3; unsigned u = 2;
  while (i-- > 0) printf("%zu %lu,", i, put("abc", sizeof buffer - 1));
  if (length - 10 > 5) puts("wraps"); printf("%d %u\n", (int)(i + 1), (unsigned)length + u);
  for (i = length; i > 0 && buffer[i - 1] != 'a'; i--) ; 
  return (int)i - 1;
}
