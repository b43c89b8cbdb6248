#include <stdio.h>
#include <stdlib.h>

/*
 * A stock ledger. It reads one command a line:
 *
 *   a NAME PRICE    a new article, PRICE cents a piece
 *   i NAME COUNT    COUNT pieces come in
 *   o NAME COUNT    COUNT pieces go out
 *   p NAME PRICE    another price
 *   u               takes the last `i`, `o` or `p` back, up to STEPS of them
 *   l               lists the articles
 *   q               ends here
 *   # TEXT          nothing
 *
 * A wrong line is told with its number and skipped, and the exit status is then 1. A full ledger ends the program
 * with status 2.
 */
enum { LETTERS = 8, ARTICLES = 6, STEPS = 4, MOST = 9999 };
enum fault { NO_NAME, NO_NUMBER, NO_END, KNOWN, UNKNOWN, TOO_MANY, TOO_FEW, NO_STEP, NO_COMMAND };

struct article {
    char name[LETTERS];
    int price;
    int stock;
    unsigned sold;
};

struct step {
    char kind;
    int article;
    int before;
    int count;
};

struct article articles[ARTICLES];
struct step steps[STEPS];
int used = 0;
int first_step = 0, kept_steps = 0;

int next, line = 1, faults = 0;
char word[LETTERS];

void tell(int fault)
{
    printf("line %d: ", line);
    switch (fault) {
    case NO_NAME:   printf("a name is missing\n"); break;
    case NO_NUMBER: printf("a number up to %d is missing\n", MOST); break;
    case NO_END:    printf("there is more than the command takes\n"); break;
    case KNOWN:     printf("this article is there already\n"); break;
    case UNKNOWN:   printf("there is no such article\n"); break;
    case TOO_MANY:  printf("no more than %d pieces can be kept\n", MOST); break;
    case TOO_FEW:   printf("there are not so many pieces\n"); break;
    case NO_STEP:   printf("nothing can be taken back\n"); break;
    default:        printf("no such command\n");
    }
    faults++;
}

void skip_blanks(void)
{
    while (next == ' ' || next == '\t')
        next = getchar();
}

/* Reads a name into `word`, with 0 behind it where there is room. Gives 0 where none stands or it is too long. */
int read_word(void)
{
    int n = 0;

    skip_blanks();
    while ((next >= 'a' && next <= 'z') || (next >= 'A' && next <= 'Z') || next == '_') {
        if (n == LETTERS)
            return 0;
        word[n++] = next;
        next = getchar();
    }
    for (int i = n; i < LETTERS; i++)
        word[i] = 0;
    return n > 0;
}

/* Reads a number up to MOST. Gives -1 where none stands or it is too large. */
int read_number(void)
{
    int number = 0;

    skip_blanks();
    if (next < '0' || next > '9')
        return -1;
    do {
        number = number * 10 + (next - '0');
        if (number > MOST)
            return -1;
        next = getchar();
    } while (next >= '0' && next <= '9');
    return number;
}

int at_end(void)
{
    skip_blanks();
    return next == '\n' || next == EOF;
}

int same(char one[], char other[])
{
    for (int i = 0; i < LETTERS; i++)
        if (one[i] != other[i])
            return 0;
    return 1;
}

/* The place of the article `word`, or -1. */
int find(void)
{
    for (int i = 0; i < used; i++)
        if (same(articles[i].name, word))
            return i;
    return -1;
}

/* Keeps a step, in the place of the oldest one where STEPS are kept. */
void keep(int kind, int article, int before, int count)
{
    int at = (first_step + kept_steps) % STEPS;

    if (kept_steps == STEPS)
        first_step = (first_step + 1) % STEPS;
    else
        kept_steps++;
    steps[at].kind = kind;
    steps[at].article = article;
    steps[at].before = before;
    steps[at].count = count;
}

void take_back(void)
{
    int at, n;

    if (kept_steps == 0) {
        tell(NO_STEP);
        return;
    }
    at = (first_step + --kept_steps) % STEPS;
    n = steps[at].article;
    switch (steps[at].kind) {
    case 'i':
        articles[n].stock -= steps[at].count;
        break;
    case 'o':
        articles[n].stock += steps[at].count;
        break;
    case 'p':
        articles[n].price = steps[at].before;
    }
}

void open_article(int price)
{
    if (find() >= 0) {
        tell(KNOWN);
        return;
    }
    if (used == ARTICLES) {
        printf("line %d: the ledger is full\n", line);
        exit(2);
    }
    for (int i = 0; i < LETTERS; i++)
        articles[used].name[i] = word[i];
    articles[used].price = price;
    used++;
}

void change(int command, int number)
{
    int n = find();

    if (n < 0) {
        tell(UNKNOWN);
        return;
    }
    switch (command) {
    case 'i':
        if (number > MOST - articles[n].stock) {
            tell(TOO_MANY);
            return;
        }
        articles[n].stock += number;
        break;
    case 'o':
        if (number > articles[n].stock) {
            tell(TOO_FEW);
            return;
        }
        articles[n].stock -= number;
        articles[n].sold += number;
        break;
    default:
        keep(command, n, articles[n].price, 0);
        articles[n].price = number;
        return;
    }
    keep(command, n, 0, number);
}

void print_name(char name[])
{
    int i = 0;

    for (; i < LETTERS && name[i]; i++)
        putchar(name[i]);
    while (i++ < LETTERS)
        putchar(' ');
}

void print_money(int cents)
{
    printf("%d.%d%d", cents / 100, cents / 10 % 10, cents % 10);
}

void list(void)
{
    int worth = 0;

    for (int i = 0; i < used; i++) {
        print_name(articles[i].name);
        printf(" %d pieces at ", articles[i].stock);
        print_money(articles[i].price);
        printf(", %u sold\n", articles[i].sold);
        worth += articles[i].stock * articles[i].price;
    }
    printf("%d articles worth ", used);
    print_money(worth);
    putchar('\n');
}

/* Runs the command with its words; gives 0 where the input ends here. */
int run(int command)
{
    int number = 0;

    switch (command) {
    case 'a': case 'i': case 'o': case 'p':
        if (!read_word()) {
            tell(NO_NAME);
            return 1;
        }
        number = read_number();
        if (number < 0) {
            tell(NO_NUMBER);
            return 1;
        }
        break;
    case 'u': case 'l': case 'q': break;
    default:
        tell(NO_COMMAND);
        return 1;
    }
    if (!at_end()) {
        tell(NO_END);
        return 1;
    }
    switch (command) {
    case 'q': return 0;
    case 'l': list(); break;
    case 'u': take_back(); break;
    case 'a': open_article(number); break;
    default:  change(command, number);
    }
    return 1;
}

int main(void)
{
    int more = 1;

    next = getchar();
    while (more && next != EOF) {
        skip_blanks();
        if (next != '\n' && next != '#' && next != EOF) {
            int command = next;
            next = getchar();
            more = run(command);
        }
        while (next != '\n' && next != EOF)
            next = getchar();
        if (next == '\n') {
            next = getchar();
            line++;
        }
    }
    if (faults > 0) {
        printf("%d wrong lines\n", faults);
        return 1;
    }
    return 0;
}
