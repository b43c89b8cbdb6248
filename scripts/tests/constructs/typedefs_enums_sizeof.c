#include <stdio.h>
#include <stddef.h>
typedef unsigned int word;
typedef struct { char name[7]; short kind; int n; unsigned char flag; } item;
typedef enum { RED, GREEN = 5, BLUE } colour;
enum sign { MINUS = -1, ZERO, PLUS };
static item items[3];
int main(void) {
  colour c = GREEN; enum sign s = MINUS; word w = 7; size_t n = sizeof(items) / sizeof items[0];
  c++;
  printf("%d %d %u %d %d\n", c == BLUE, s < 0, w, (int)n, (int)sizeof(item));
  printf("%d %d %d\n", (int)sizeof(short), (int)sizeof "abc", (int)sizeof(items[0].name));
  enum { INNER = 9 }; int a[INNER];
  for (size_t i = 0; i < sizeof a / sizeof *a; i++) a[i] = (int)i * 2;
  printf("%d\n", a[8]);
  return c - RED;
}
