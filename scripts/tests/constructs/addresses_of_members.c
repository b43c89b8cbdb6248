/* Numbers that are members of structs, handed on by `&`, and pointers to members that are assigned later. */
#include <stdio.h>
#include <string.h>

struct inner {
    short low;
    unsigned char byte;
};

struct entry {
    int number;
    char name[6];
    struct inner inner;
    unsigned count;
};

struct table {
    struct entry entries[4];
    size_t used;
    int last;
};

static struct entry first = { 1, "one", { -2, 200 }, 4 };
static struct entry more[2] = { { .name = "a", .inner = { .byte = 7 } } };
static struct table table;

static int set(int *to, int value)
{
    int old = *to;

    *to = value;
    return old;
}

static void half(short *low, unsigned char *byte)
{
    *low /= 2;
    byte[0] /= 2;
}

static void add(struct table *t, const char *name, int number)
{
    struct entry *e;

    if (t->used >= 4)
        return;
    e = &t->entries[t->used++];
    strncpy(e->name, name, sizeof(e->name) - 1);
    t->last = set(&e->number, number) + number;
    e->count += 2;
    e->inner.byte = 255;
}

static int total(const struct table *t)
{
    const struct entry *e;
    int sum = 0;

    for (e = t->entries; e < t->entries + t->used; e++)
        sum += e->number * (int)e->count;
    return sum;
}

int main(void)
{
    struct entry local = { 5 }, copy;
    struct entry *p = &local;
    unsigned *count = &more[1].count;
    int old = set(&first.number, 10);

    half(&first.inner.low, &first.inner.byte);
    printf("%d %d %d %d %u\n", old, first.number, first.inner.low, first.inner.byte, first.count);
    old = set(&p->number, -5);
    *count += 3;
    ++*count;
    printf("%d %d %u %d\n", old, local.number, more[1].count, more[0].inner.byte);
    copy = local;
    set(&copy.number, 77);
    half(&more[0].inner.low, &more[0].inner.byte);
    printf("%d %d %d\n", copy.number, local.number++, more[0].inner.byte);
    memset(&copy, 0, sizeof(copy));
    printf("%d %d\n", copy.number, local.number);
    add(&table, "first", 3);
    add(&table, "second", 4);
    for (int i = 0; i < 2; i++)
        printf("%s %d %u\n", table.entries[i].name, table.entries[i].number, table.entries[i].count);
    printf("%d %d %d\n", total(&table), table.last, table.entries[1].inner.byte);
    return 0;
}
