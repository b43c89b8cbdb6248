/* NULL among the strings of a table: where it is tested, and pointers that are taken from a table. */
#include <stdio.h>
#include <string.h>

struct command {
    const char *name;
    int code;
    const char *help;
};

static const char *const units[] = { "B", "KB", "MB", NULL };
static const char *sparse[5] = { "first", [3] = "fourth" };
static const struct command commands[] = {
    { "add", 1, "adds" },
    { "sub", 2 },
    { .name = "mul", .help = NULL, .code = 3 },
    { NULL, 0, NULL },
};
static struct command empty[2];
static const char *const full[] = { "", "x", "yz" };

static int find(const char *word)
{
    for (int i = 0; commands[i].name != NULL; i++)
        if (strcmp(commands[i].name, word) == 0)
            return commands[i].code;
    return -1;
}

static int length(const char *text)
{
    return (int)strlen(text);
}

static int or_zero(const char *text)
{
    return text == NULL ? 0 : length(text);
}

int main(void)
{
    const char *const local[] = { "a", 0, "c" };
    unsigned size = 5000000;
    int i, count = 0;

    for (i = 0; size >= 1024 && units[i + 1] != NULL; i++)
        size /= 1024;
    printf("%u %s\n", size, units[i]);
    for (i = 0; units[i]; i++)
        count += length(units[i]);
    printf("%d\n", count);
    for (i = 0; i < 5; i++)
        printf("%s%c", sparse[i] ? sparse[i] : "none", i < 4 ? ' ' : '\n');
    for (const struct command *c = commands; c->name; c++)
        printf("%s %d %s %d\n", c->name, c->code, c->help != NULL ? c->help : "-", !c->help && c->code > 2);
    for (i = 0; i < 3; i++) {
        const char *text = local[i];

        if (text == NULL)
            continue;
        printf("%s %d\n", text, text[0]);
    }
    for (i = 0; i < 3; i++) {
        const char *text = commands[i].help;

        if (text)
            while (*text)
                putchar(*text++);
        putchar(text && units[0] != 0 ? '.' : '!');
    }
    printf("\n%d %d %d\n", find("mul"), find("div"), empty[1].name == NULL && empty[0].help == NULL);
    for (i = 0; i < 3; i++)
        printf("<%s>%d", full[i], or_zero(full[i]));
    putchar('\n');
    return 0;
}
