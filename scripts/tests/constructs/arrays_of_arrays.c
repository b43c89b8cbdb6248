/* Arrays of arrays as parameters, and the objects, members and rows that are handed to them. */
#include <stdio.h>
#include <string.h>

#define ROWS 3
#define COLUMNS 4

typedef int matrix[ROWS][COLUMNS];

struct cell {
    short height;
    unsigned char flags;
    char name[3];
};

struct board {
    int width;
    char squares[2][5];
    matrix weights;
    struct cell cells[2][2];
};

static int grid[ROWS][COLUMNS] = { { 1, 2 }, { [2] = 7 }, 9, 10, 11, 12 };
static char names[][8] = { "one", "two", "three", { 'f', 'o', 'u', 'r' }, "eightchr" };
static unsigned char bytes[2][3] = { { 200, 255 }, "\377a" };
static short cube[2][3][4] = { { { 1 }, { 2, 3 } }, { [1] = { 4, 5, 6, -7 } } };
static struct cell map[2][3] = { { { 1, 2, "a" }, { .flags = 250 } }, { [2] = { -5, 6, "yz" } } };
static struct board board = { 5, { "abcd", "efgh" }, { { 1, 2, 3, 4 }, { 5 } }, { { { 1, 2, "c" } } } };
static int apart[2][2] = { { 1, 2 }, { 3, 4 } };

static int sum_row(const int row[], int n)
{
    int sum = 0;

    for (int i = 0; i < n; i++)
        sum += row[i];
    return sum;
}

static int sum(int m[][COLUMNS], size_t rows)
{
    int total = 0;

    for (size_t i = 0; i < rows; i++)
        total += sum_row(m[i], COLUMNS) + *m[i] + m[i][COLUMNS - 1];
    return total;
}

static void fill(matrix m, int start)
{
    for (unsigned i = 0; i < ROWS; i++)
        for (unsigned char j = 0; j < COLUMNS; j++)
            m[i][j] = start++;
    (*m)[1] *= 2;
    **m += 1;
    m[ROWS - 1][m[0][0] & 1]--;
}

static void add(int a[ROWS][COLUMNS], int b[ROWS][COLUMNS], int result[ROWS][COLUMNS])
{
    matrix made;

    for (int i = 0; i < ROWS; i++)
        for (int j = 0; j < COLUMNS; j++)
            made[i][j] = a[i][j] + b[i][j];
    memcpy(result, made, sizeof(made));
}

static int both(int (*a)[COLUMNS], int b[][COLUMNS])
{
    return sum(a, 2) - sum(b, 1);
}

static void shout(char lines[][8], int n)
{
    for (int i = 0; i < n; i++) {
        char *p = lines[i];

        for (; *p != '\0' && p < lines[i] + 8; p++)
            if (*p >= 'a' && *p <= 'z')
                *p -= 'a' - 'A';
    }
    strcpy(lines[1], "changed");
    lines[0][strlen(lines[0]) - 1] = '!';
}

static void print_squares(char squares[][5], int n)
{
    for (int i = 0; i < n; i++)
        printf("%-6s|%c|%u\n", squares[i], squares[i][1], (unsigned)sizeof(squares[i]));
}

static int plane(short p[3][4])
{
    int sum = 0;

    for (int i = 0; i < 3; i++)
        for (int j = 0; j < 4; j++)
            sum = sum * 2 + p[i][j];
    return sum;
}

static int volume(short v[][3][4], int n)
{
    int sum = 0;

    for (int i = 0; i < n; i++)
        sum += plane(v[i]) + v[i][1][3];
    return sum;
}

static int high(struct cell cells[][3], int i)
{
    struct cell copy = cells[i][2];
    struct cell *last = &cells[1][2];

    cells[0][1] = copy;
    last->flags++;
    return copy.height + cells[0][1].flags * 1000 + last->flags + cells[i][2].name[1];
}

static int count(struct cell cells[2][2])
{
    return cells[0][0].height * cells[0][0].flags + cells[1][1].height;
}

static int sum_bytes(unsigned char b[][3])
{
    return b[0][0] + b[0][1] * 2 + b[1][0] * 3 + b[1][1];
}

static void clear(char lines[2][6])
{
    memset(lines[1], 'x', 5);
    memset(&lines[0][2], 'y', 2);
}

int main(void)
{
    matrix local, other = { { 0, 1 }, { 2 } };
    static int kept[2][COLUMNS];
    struct board copy;
    char lines[2][6] = { "first", "again" };
    int step = 0;

    fill(local, 10);
    add(local, other, grid);
    printf("%d %d %d\n", sum(grid, ROWS), sum(local, 1), both(other, grid));
    printf("%d %d\n", sum_row(grid[1], 3), sum_row(&grid[1][1], 2));
    fill(grid, -3);
    memset(kept, 0, sizeof(kept));
    kept[step++][2] = 5;
    kept[step][3] += 6;
    printf("%d %d %u\n", sum(kept, 2), kept[0][2], (unsigned)sizeof(kept));
    shout(names, 4);
    for (int i = 0; i < 4; i++)
        printf("%s%c", names[i], i < 3 ? ' ' : '\n');
    printf("%.3s %c\n", names[4], names[4][7]);
    print_squares(board.squares, 2);
    copy = board;
    copy.squares[1][1] = 'F';
    copy.cells[1][1].height = 40000u & 0x7fff;
    fill(copy.weights, 7);
    print_squares(copy.squares, 2);
    printf("%d %d %d\n", sum(board.weights, ROWS), sum(copy.weights, ROWS), count(copy.cells));
    printf("%d %d %d\n", volume(cube, 2), plane(cube[1]), cube[1][1][3]);
    step = high(map, 1);
    printf("%d %d\n", step, map[0][1].flags);
    printf("%d %d\n", sum_bytes(bytes), apart[1][0]);
    clear(lines);
    printf("%s %s\n", lines[0], lines[1]);
    return 0;
}
