#include <stdio.h>
#include <string.h>
#include <stdlib.h>
#include <ctype.h>
static int number(const char *s) { return atoi(s); }
int main(void) {
  char line[16]; int n = 0, total = 0;
  while (fgets(line, sizeof line, stdin)) {
    char *end = strchr(line, '\n');
    if (end != NULL) *end = '\0';
    line[strcspn(line, "#")] = 0;
    if (isdigit((unsigned char)line[0]) || (line[0] == '-' && isdigit((unsigned char)line[1]))) total += abs(number(line));
    for (size_t i = 0; i < strlen(line); i++) line[i] = toupper((unsigned char)line[i]);
    printf("%d:%s;\n", ++n, line);
  }
  if (fgets(line, 5, stdin) == NULL) puts("end");
  return total;
}
