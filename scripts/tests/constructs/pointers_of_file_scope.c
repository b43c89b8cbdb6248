#include <stdio.h>
#include <string.h>
struct item { int n; char c; };
static unsigned char tape[30], *p = tape;
static unsigned char *q = tape + 3;
static char line[40], *at, *end = NULL;
static struct item pool[5], *free_item = &pool[2];
static int numbers[] = { 3, 1, 2 };
extern int *cursor;
int *cursor = numbers;
static char *text = line;
static unsigned char *bytes = (unsigned char *)line;
static char *nowhere;
static int is_null(const char *s) { return s == NULL; }
static void shadow(char *at) { at++; printf("%c", *at); { char *text = line + 2; text++; printf("%c\n", *text); } text++; }
static int peek(void) { return at != NULL && *at ? *at : -1; }
static int next(void) { return *at ? *at++ : -1; }
static int sum(const int *v, int n) { int s = 0; while (n--) s = s * 10 + *v++; return s; }
static void take(struct item *it) { it->n++; free_item++; }
static int count(void) { static char *last = line; static int calls; if (at != last) { last = at; calls++; } return calls; }
int main(void)
{
    char *local;
    if (end || !q) return 9;
    *p = 3; p++; *p = 'a'; p[1] = 200;
    printf("%d %d %d %d\n", tape[0], *p, (int)(p - tape), p[1]);
    q = p; q += 2; --q;
    printf("%d %d\n", q == p, q > p);
    strcpy(line, "one two");
    at = line; end = strchr(line, ' ');
    if (end != NULL) *end = 0;
    printf("%s %d\n", at, peek());
    while (next() != -1) count();
    local = at + 1; at = local;
    printf("%s %d %d %s\n", at, count(), (int)strlen(at), end ? "yes" : "no");
    at++;
    printf("%c", next()); printf("%c\n", peek());
    take(free_item); free_item->c = 'x'; free_item[-1].c = 'y';
    printf("%d %c %c %d\n", pool[2].n, pool[2].c, pool[3].c, (int)(free_item - pool));
    printf("%d ", sum(cursor, 3)); cursor++; printf("%d\n", sum(cursor, 2));
    for (cursor = numbers; cursor < numbers + 3; cursor++) printf("%d", *cursor);
    line[0] = (char)200; printf("%d %d ", *bytes, *text); text = NULL; printf("%d%d%d ", is_null(text), is_null(at), is_null(nowhere));
    text = line; shadow(line); printf("%d ", (int)(text - line)); text = NULL; if (peek() == 'w') text = line + 5; printf("%s\n", text ? text : "none");
    nowhere = line; memset(nowhere, 'z', 3); printf("%s\n", line);
    end = NULL; printf("%d%d\n", end == NULL, (int)sizeof(at));
    return 0;
}
