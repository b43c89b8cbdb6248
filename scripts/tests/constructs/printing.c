#include <stdio.h>
static const char name[] = "gnu";
static int side(void) { printf("!"); return 3; }
int main(void) {
  int n = -42; unsigned u = 3000000000u; char c = 'z', text[20] = "some text"; unsigned char b = 200;
  printf("[%5d|%-5d|%05d|%+d|% d|%d%%]\n", n, n, n, 7, 7, n);
  printf("[%5u|%-12u|%012u|%x|%X|%08x|%o]\n", 7u, u, u, u, 48879u, 255u, 8u);
  printf("[%s|%6s|%-6s|%.2s|%5.1s|%*s|%-*s|%.*s]\n", name, name, name, name, name, 5, name, -5, name, 1, name);
  printf("[%c|%3c|%-3c|%s|%5s]\n", c, c, c, n < 0 ? "below" : "above", n > 0 ? "a" : "b");
  printf("[%hhd|%hd|%hu|%hhu]\n", 300, 70000, 70000, 300);
  printf("%d %s %d\n", side(), text, n + 1);
  printf(n < 0 ? "minus %d\n" : "plus %d\n", n);
  printf("a\"b\\c\td%%e?\?f\n"); printf("%s", ""); printf("");
  printf("%d %d %d %d %d %d %d %d %d %d\n", 1, 2, 3, 4, 5, 6, 7, 8, 9, 10);
  printf("%d %d\n", b, (char)b); printf("%c%c", b, 'x'); printf("\x01\xff\n");
  puts("line"); puts(text); puts(n ? "yes" : "no"); fputs("no newline", stdout); fputs(name, stdout);
  putc('!', stdout); fputc('\n', stdout); putchar(b); fprintf(stdout, "%4d\n", n); fflush(stdout);
  printf("%*d|%*d|%i\n", 6, n, -6, n, 12);
  return 0;
}
