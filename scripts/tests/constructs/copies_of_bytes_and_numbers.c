#include <stdio.h>
#include <string.h>
struct cell { char mark; int count[2]; };
static int board[3][4]; static struct cell cells[3], other; static char text[8]; static unsigned words[4];
int main(void) {
  int from[4] = { 1, 2, 3, 4 }, to[4]; struct cell c; char grid[2][5];
  memset(&c, 0, sizeof c); memset(text, '-', 5); memset(words, 0, sizeof(words));
  board[1][2] = 7; memcpy(to, from, sizeof to); memcpy(board[2], from, sizeof(from));
  memcpy(&to[1], from, 2 * sizeof(int)); memset(grid, 0, sizeof grid);
  cells[1].count[1] = 5; memcpy(&other, &cells[1], sizeof other); memset(cells, 0, sizeof cells);
  memmove(text + 1, text, 4); strcpy(grid[1], "abc"); strcat(text, "x"); strncpy(grid[0], "pq", 5);
  printf("%d %d %d %d %s %d %d %d %s %s\n", c.mark, to[1], to[3], board[2][3], text, cells[1].count[1], other.count[1],
         board[1][2], grid[1], grid[0]);
  memset(board, 0, sizeof board); printf("%d %d\n", board[1][2], memcmp(grid[1], "abd", 3) < 0);
  static int planes[2][2][3] = { { { 1, 2, 3 }, { 4, 5, 6 } }, { { 7, 8, 9 } } }, copies[2][2][3];
  static struct cell many[2][2], twins[2][2]; char rows[3][4]; int n = 2, zeros[4] = { 1, 2, 3, 4 };
  many[1][0].count[0] = 8; memcpy(copies, planes, sizeof planes); memcpy(twins, many, sizeof(many));
  memset(rows, n + 'a', sizeof rows); memset(planes, 0, sizeof planes); memset(zeros + 1, 0, n * sizeof(int));
  memset(&many[1], 0, sizeof many[1]);
  printf("%d %d %d %d %c %d %d %d %d\n", copies[0][1][2], copies[1][0][1], twins[1][0].count[0], planes[0][1][0],
         rows[2][3], zeros[0], zeros[2], zeros[3], many[1][0].count[0]);
  return strlen(text) + strspn("aab", "a");
}
