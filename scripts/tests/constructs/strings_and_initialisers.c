#include <stdio.h>
#include <string.h>
struct point { int x, y; };
struct shape { char name[8]; struct point corners[3]; int n; };
static struct shape shapes[] = {
  { "line", { { 1, 2 }, { 3, 4 } }, 2 },
  { "tri", 1, 2, 3, 4, 5, 6, 3 },
  [3] = { .n = 1, .corners[1] = { .y = 9 }, .name = "d\x6ft\101" },
};
static const char *const words[] = { "zero", "one" "two", [4] = "f\tour" };
static char grid[2][3] = { "ab", { 'x', 'y', 'z' } };
static int flat[2][2] = { 1, 2, 3 };
int main(void) {
  char local[] = "joined " "text", exact[3] = "abc", rest[10] = { 'q' };
  int numbers[5] = { [1] = 5, 6 }, scalar = { 3 };
  struct shape one = { "k", { { 7 } } };
  for (int i = 0; i < 4; i++)
    printf("%s %d %d %d %d\n", shapes[i].name, shapes[i].corners[0].x, shapes[i].corners[1].y, shapes[i].corners[2].y,
           shapes[i].n);
  printf("%s %s %s %c%c\n", words[0], words[1], words[4], grid[0][1], grid[1][2]);
  printf("%s %d %c %d %d\n", local, (int)sizeof local, exact[2], rest[1], numbers[2] + scalar);
  printf("%d %d %s %d\n", flat[1][0], flat[1][1], one.name, one.corners[0].x + one.corners[0].y);
  const char joined[] = "\x1" "b\0" "12\\x41\101" "1";
  printf("%d:", (int)sizeof joined);
  for (int i = 0; i < (int)sizeof joined; i++) printf(" %d", joined[i]);
  printf("\x41" "B" "\60" "1\n");
  return strcmp(words[1], "onetwo") == 0;
}
