#include <stdio.h>
#include <string.h>
struct pair { int a, b; char name[8]; };
static struct pair make(int a) { struct pair p; p.a = a; p.b = a + 1; strcpy(p.name, "n"); return p; }
static struct pair add(struct pair x, struct pair y) { x.a += y.a; x.b -= y.b; strcat(x.name, y.name); return x; }
static int sum(const int *values, int n) { int s = 0; while (values != NULL && n-- > 0) s += values[n]; return s; }
static const char *const titles[] = { "none", "one", "more" };
static void show(const char *title, struct pair p) { printf("%s %d %d %s\n", title, p.a, p.b, p.name); }
static int odd[3] = { 1, 3, 5 }, even[2] = { 2, 4 };
int main(void) {
  show("t", add(add(make(1), make(2)), make(4)));
  struct pair p = add(make(2), make(3)), row[2]; row[0] = make(7); row[1] = row[0]; row[p.a - 5] = add(p, row[1]);
  for (int i = 0; i < 3; i++) show(i > 1 ? titles[2] : i == 1 ? "1" : titles[0], i ? row[i - 1] : p);
  printf("%d %d %d\n", sum(odd, 3), sum(&even[1], 1), sum(NULL, 3));
  printf("%d %d\n", make(5).b, add(make(1), make(1)).b + 3);
  struct { const char *word; int n; } local[] = { { "alpha", 1 }, { "be", 2 } }; const char *names[] = { "x", "yy" };
  for (int i = 0; i < 2; i++) printf("%s%d%s ", local[i].word, local[i].n, names[i]);
  char from[8], to[8]; strcpy(from, "ab"); memcpy(to, from, sizeof from); puts(to);
  return make(3).a;
}
