#include <stdio.h>
#include <string.h>
static int sum(const int a[], int n) { int s = 0; while (n-- > 0) s += a[n]; return s; }
static int length(const char *s) { int n = 0; while (*s++) n++; return n; }
static void upper(char *s) { for (; *s != '\0'; s++) if (*s >= 'a' && *s <= 'z') *s -= 32; }
static void fill(int *out, int n) { for (int i = 0; i < n; i++) *(out + i) = i * i; }
static void minmax(const int a[], int n, int *least, int *most) {
  *least = *most = a[0];
  for (int i = 1; i < n; i++) { if (a[i] < *least) *least = a[i]; if (a[i] > *most) *most = a[i]; }
}
static int find(const char text[], const char *part, int *where) {
  if (where != NULL) *where = -1;
  for (int i = 0; text[i]; i++) if (strncmp(&text[i], part, strlen(part)) == 0) { if (where) *where = i; return 1; }
  return 0;
}
static char rows[3][10] = { "one", "two", "three" };
int main(void) {
  int a[6], lo, hi, at; char word[12] = "hello";
  fill(a, 6); fill(&a[4], 2);
  minmax(a + 1, 4, &lo, &hi);
  upper(word + 1); upper(rows[2]);
  printf("%d %d %d %d %s %s\n", sum(a, 6), sum(&a[2], 3), lo, hi, word, rows[2]);
  printf("%d %d %d\n", length("four"), length(&rows[1][1]), length(word));
  printf("%d ", find("a needle", "need", &at)); printf("%d %d\n", at, find(rows[0], "x", NULL));
  return sum(a, 2);
}
