#include <stdio.h>
#include <string.h>
static char line[80] = "key=value; other=thing";
static struct entry { const char *name; int n; } entries[] = { { "a", 1 }, { "bb", 2 } };
static void trim(char *s) { char *end = s + strlen(s); while (end > s && end[-1] == ' ') end--; *end = '\0'; }
int main(void) {
  char *equals = strchr(line, '='), *semicolon = strchr(line, ';'), *p;
  if (equals == NULL || !semicolon) return 1;
  printf("%d %c %s\n", (int)(semicolon - equals), equals[1], equals + 1);
  for (p = line; *p != '\0' && *p != '='; p++) putchar(*p);
  putchar('\n');
  if ((p = strrchr(line, '=')) != NULL) printf("%s\n", p);
  p = strchr(line, '#'); printf("%d\n", p == NULL);
  const struct entry *e = &entries[1]; const char *name = entries[0].name; int k = 1;
  const char *second = entries[k].name; k = 0;
  printf("%s %d %s %s\n", e->name, e->n, name, second);
  char text[10] = "ab   "; trim(text); printf("[%s]\n", text);
  int numbers[4] = { 1, 2, 3, 4 }, *q = numbers, s = 0;
  while (q < numbers + 4) s += *q++;
  return s;
}
