/* `sprintf` and `snprintf`: conversions, room that doesn't suffice, results, and what is written to. */
#include <stdio.h>
#include <string.h>

struct label {
    char text[12];
    int length;
    unsigned char code;
};

static char line[80];
static int calls;
static const char *const names[] = { "zero", "one", "two" };

static int next(void)
{
    return ++calls;
}

static void show(char *to, size_t size, const char *word, int n)
{
    int length = snprintf(to, size, "<%s:%d>", word, n);

    if (length >= (int)size)
        printf("cut at %u of %d: ", (unsigned)size, length);
    printf("%s\n", to);
}

static void name(struct label *l, int n)
{
    int length = sprintf(l->text, "%c", 'a' + n);

    length += sprintf(l->text + length, "%02x", l->code);
    length += snprintf(&l->text[length], sizeof(l->text) - length, "%s%s", names[n], n > 1 ? "!" : "");
    l->length = length;
}

int main(void)
{
    char small[4] = "abc", rows[2][8];
    struct label labels[2] = { { .code = 250 }, { .code = 7 } };
    unsigned u = 4000000000u;
    short s = -300;
    int n = -5;

    sprintf(line, "%d|%5d|%-5d|%05d|%+d|% d|%i", n, n, n, n, 7, 8, n);
    printf("%s\n", line);
    sprintf(line, "%u|%x|%X|%o|%8x|%hhd|%hu", u, u, u, 8u, 255u, s, s);
    printf("%s\n", line);
    sprintf(line, "%c%3c%-3c|%s|%6s|%-6s|%.2s|%5.1s|%%", 'x', 'y', 'z', "st", "ab", "cd", "efg", "hi");
    printf("%s\n", line);
    sprintf(line, "%*d|%-*d|%.*s|%*s|%s", 4, n, 4, n, 2, names[1], -6, names[2], names[next()]);
    printf("%s %d\n", line, calls);
    sprintf(line, "%c%c%d", line[1], line[0], line[2]);
    printf("%s\n", line);
    sprintf(line, "%ld %lu", (long)n, (unsigned long)u);
    printf("%s %u\n", line, (unsigned)strlen(line));
    printf("%d", snprintf(small, sizeof(small), "%d", 12345));
    printf(" %s", small);
    snprintf(small, 1, "%s", "gone");
    printf(" <%s>", small);
    small[0] = 'k';
    n = snprintf(small, 0, "%s", "kept");
    printf(" %d %c\n", n, small[0]);
    n = -5;
    printf("%d\n", snprintf(NULL, 0, "%s-%03d", "length", 5));
    if (n < 0 && snprintf(line, sizeof line, "%d", next()) == 1)
        printf("%s\n", line);
    show(line, sizeof(line), "whole", 10);
    show(line, 6, "part", -10);
    show(&line[1], 2, "", 0);
    printf("%s\n", line);
    for (int i = 0; i < 2; i++) {
        name(&labels[i], i + 1);
        sprintf(rows[i], "%d", labels[i].length);
        printf("%s %s\n", labels[i].text, rows[i]);
    }
    sprintf(rows[n + 5] + 1, "%s", n < 0 ? "minus" : "plus");
    printf("%s\n", rows[0]);
    sprintf(line, "no conversion\n");
    printf("%s", line);
    sprintf(line, "%s", "");
    printf("%d\n", (int)strlen(line));
    return 0;
}
