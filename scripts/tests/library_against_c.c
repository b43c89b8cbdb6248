/*
 * Compares the functions of library.h, `std_NAME`, with those of the C library.
 *
 * Usage: values            compares results and arrays over all characters and many random strings; 1 where one differs
 *        print c|std       prints numbers and texts, by printf or by what stands for it
 *        lines c|std       reads lines of several sizes by fgets, and shows what comes
 *        numbers c|std     reads numbers by scanf, and shows what comes
 */
#include <ctype.h>
#include <stdio.h>
#include <stdlib.h>
#include <string.h>
#include "library.h"

#define SIZE 40
#define TRIES 20000

static unsigned state = 1;
static int faults;

static unsigned draw(unsigned from)
{
    state = state * 1664525u + 1013904223u;
    return (state >> 8) % from;
}

static void check(int holds, const char *what, int number)
{
    if (!holds && faults++ < 20)
        printf("%s differs at %d\n", what, number);
}

/* ---- results */

static int sign(int value)
{
    return (value > 0) - (value < 0);
}

/* A pointer into a text as an index behind its argument. */
static int index_of(const void *found, const char *text)
{
    return found ? (int)((const char *)found - text) : -1;
}

#define CLASS(name) check(!name(c) == !std_##name(c), #name, c)

static void characters(void)
{
    for (int c = -1; c < 256; c++) {
        CLASS(isalpha), CLASS(isdigit), CLASS(isalnum), CLASS(isspace), CLASS(isblank), CLASS(isupper), CLASS(islower);
        CLASS(isxdigit), CLASS(isprint), CLASS(isgraph), CLASS(iscntrl), CLASS(ispunct);
        check(toupper(c) == std_toupper(c), "toupper", c);
        check(tolower(c) == std_tolower(c), "tolower", c);
    }
}

/* Texts of few different bytes, so that parts of them are often the same. */
static void fill(char text[SIZE], unsigned most)
{
    unsigned length = draw(most + 1);
    for (unsigned i = 0; i < SIZE; i++)
        text[i] = "ab\xe9 \x7f"[draw(5)];
    text[length] = '\0';
    text[SIZE - 1] = '\0';
}

/* Each function without and with offsets: of those without, a and b are 0. */
#define BOTH(plain, with_offsets) (a + b == 0 ? (plain) : (with_offsets))

static void look(char s[SIZE], char t[SIZE], unsigned a, unsigned b, unsigned n, int c, int try)
{
    const char *u = s + a, *v = t + b;
    check(strlen(u) == BOTH(std_strlen(s), std_strlen_at(s, a)), "strlen", try);
    check(sign(strcmp(u, v)) == sign(BOTH(std_strcmp(s, t), std_strcmp_at(s, a, t, b))), "strcmp", try);
    check(sign(strncmp(u, v, n)) == sign(BOTH(std_strncmp(s, t, n), std_strncmp_at(s, a, t, b, n))), "strncmp", try);
    check(sign(memcmp(u, v, n)) == sign(BOTH(std_memcmp(s, t, n), std_memcmp_at(s, a, t, b, n))), "memcmp", try);
    check(strspn(u, v) == BOTH(std_strspn(s, t), std_strspn_at(s, a, t, b)), "strspn", try);
    check(strcspn(u, v) == BOTH(std_strcspn(s, t), std_strcspn_at(s, a, t, b)), "strcspn", try);
    check(index_of(strchr(u, c), u) == BOTH(std_strchr_index(s, c), std_strchr_index_at(s, a, c)), "strchr", try);
    check(!strchr(u, c) == !BOTH(std_strchr_found(s, c), std_strchr_found_at(s, a, c)), "strchr found", try);
    check(index_of(strrchr(u, c), u) == BOTH(std_strrchr_index(s, c), std_strrchr_index_at(s, a, c)), "strrchr", try);
    int at = BOTH(std_memchr_index(s, c, n), std_memchr_index_at(s, a, c, n));
    check(index_of(memchr(u, c, n), u) == at, "memchr", try);
    check(!memchr(u, c, n) == !BOTH(std_memchr_found(s, c, n), std_memchr_found_at(s, a, c, n)), "memchr found", try);
    at = BOTH(std_strpbrk_index(s, t), std_strpbrk_index_at(s, a, t, b));
    check(index_of(strpbrk(u, v), u) == at, "strpbrk", try);
    check(!strpbrk(u, v) == !BOTH(std_strpbrk_found(s, t), std_strpbrk_found_at(s, a, t, b)), "strpbrk found", try);
    check(index_of(strstr(u, v), u) == BOTH(std_strstr_index(s, t), std_strstr_index_at(s, a, t, b)), "strstr", try);
    check(!strstr(u, v) == !BOTH(std_strstr_found(s, t), std_strstr_found_at(s, a, t, b)), "strstr found", try);
}

/* Does it to two copies of an array, in C's way and in ours, which have to stay the same. */
#define CHANGE(name, real, plain, with_offsets) do { \
        char x[SIZE], y[SIZE]; \
        memcpy(x, s, SIZE), memcpy(y, s, SIZE); \
        real; \
        if (a + b == 0) plain; else with_offsets; \
        check(memcmp(x, y, SIZE) == 0, name, try); \
    } while (0)

static void change(char s[SIZE], char t[SIZE], unsigned a, unsigned b, unsigned n, int c, int try)
{
    CHANGE("strcpy", strcpy(x + a, t + b), std_strcpy(y, t), std_strcpy_at(y, a, t, b));
    CHANGE("strncpy", strncpy(x + a, t + b, n), std_strncpy(y, t, n), std_strncpy_at(y, a, t, b, n));
    CHANGE("strcat", strcat(x + a, t + b), std_strcat(y, t), std_strcat_at(y, a, t, b));
    CHANGE("strncat", strncat(x + a, t + b, n), std_strncat(y, t, n), std_strncat_at(y, a, t, b, n));
    CHANGE("memset", memset(x + a, c, n), std_memset(y, c, n), std_memset_at(y, a, c, n));
    CHANGE("memcpy", memcpy(x + a, t + b, n), std_memcpy(y, t, n), std_memcpy_at(y, a, t, b, n));
    CHANGE("memmove", memmove(x + a, x + b, n), std_memmove(y, y, n), std_memmove_at(y, a, y, b, n));
    CHANGE("memmove of two", memmove(x + a, t + b, n), std_memmove(y, t, n), std_memmove_at(y, a, t, b, n));
}

static void strings(void)
{
    char s[SIZE], t[SIZE];
    for (int try = 0; try < TRIES; try++) {
        fill(s, 12), fill(t, try % 2 ? 12 : 3);
        unsigned a = 0, b = 0, n = draw(14);
        if (try % 3)
            a = draw(strlen(s) + 1), b = draw(strlen(t) + 1);
        int c = (int)draw(3) == 0 ? 0 : (int)draw(700) - 300;
        c = draw(2) ? c : s[draw(12)];
        look(s, t, a, b, n, c, try);
        change(s, t, a, b, n, c, try);
    }
}

static void numbers_in_arrays(void)
{
    int from[6] = {1, -2, 3, -4, 5, -6}, to[6] = {0}, copied[6] = {0, -4, 5, 0, 0, 0}, filled[6] = {7, 7, 7, -9, -9, 7};
    unsigned ufrom[6] = {1, 2, 3, 4, 5, 4294967295u}, uto[6] = {0}, ufilled[6] = {8, 8, 8, 8, 4294967295u, 8};
    std_copy_int_at(to, 1, from, 3, 2);
    check(memcmp(to, copied, sizeof to) == 0, "copy_int_at", 0);
    std_copy_int(to, from, 6);
    check(memcmp(to, from, sizeof to) == 0, "copy_int", 0);
    std_fill_int(to, 7, 6), std_fill_int_at(to, 3, -9, 2);
    check(memcmp(to, filled, sizeof to) == 0, "fill_int", 0);
    std_copy_unsigned(uto, ufrom, 6);
    check(memcmp(uto, ufrom, sizeof uto) == 0, "copy_unsigned", 0);
    std_fill_unsigned(uto, 8, 6), std_copy_unsigned_at(uto, 4, ufrom, 5, 1);
    check(memcmp(uto, ufilled, sizeof uto) == 0, "copy_unsigned_at", 0);
    std_fill_unsigned_at(uto, 4, 8, 1);
    check(uto[4] == 8, "fill_unsigned_at", 0);
}

static void numbers_of_texts(void)
{
    for (int try = 0; try < TRIES; try++) {
        char text[SIZE];
        unsigned length = draw(12), digits = 0;
        for (unsigned i = 0; i < length; i++) {
            text[i] = " \t\n\v\f\r+-0123456789x"[draw(draw(3) ? 19 : 6)];
            digits += text[i] >= '0' && text[i] <= '9';
            if (digits == 9)
                length = i + 1;
        }
        text[length] = '\0';
        unsigned a = draw(length + 1);
        check(atoi(text) == std_atoi(text), "atoi", try);
        check(atoi(text + a) == std_atoi_at(text, a), "atoi_at", try);
    }
    char least[] = "-2147483648", most[] = "2147483647";
    check(std_atoi(least) == -2147483647 - 1 && std_atoi(most) == 2147483647, "atoi", -1);
    check(std_abs(-5) == 5 && std_abs(5) == 5 && std_abs(0) == 0 && std_abs(-2147483647) == 2147483647, "abs", 0);
}

static int values(void)
{
    characters();
    strings();
    numbers_in_arrays();
    numbers_of_texts();
    return faults > 0;
}

/* ---- output */

static const int NUMBERS[] = {0, 1, -1, 7, -9, 10, -10, 99, 12345, -12345, 2147483647, -2147483647 - 1};

static void print_numbers(int by_c, int n, unsigned u)
{
    if (by_c) {
        printf("%3d|%-3d|%03d|%+3d|% 3d|%8d|%-8d|%08d|%+d|% d\n", n, n, n, n, n, n, n, n, n, n);
        printf("%4u|%-4u|%04u|%4x|%-4x|%04x|%X|%8X|%08x|%o|%12o|%x\n", u, u, u, u, u, u, u, u, u, u, u, u);
        return;
    }
    std_print_int(n, 0, 3, ' '), putchar('|'), std_print_int(n, 0, 3, '-'), putchar('|');
    std_print_int(n, 0, 3, '0'), putchar('|'), std_print_int(n, '+', 3, ' '), putchar('|');
    std_print_int(n, ' ', 3, ' '), putchar('|'), std_print_int(n, 0, 8, ' '), putchar('|');
    std_print_int(n, 0, 8, '-'), putchar('|'), std_print_int(n, 0, 8, '0'), putchar('|');
    std_print_int(n, '+', 0, ' '), putchar('|'), std_print_int(n, ' ', 0, ' '), putchar('\n');
    std_print_number(u, 0, 10, 'a', 4, ' '), putchar('|'), std_print_number(u, 0, 10, 'a', 4, '-'), putchar('|');
    std_print_number(u, 0, 10, 'a', 4, '0'), putchar('|'), std_print_number(u, 0, 16, 'a', 4, ' '), putchar('|');
    std_print_number(u, 0, 16, 'a', 4, '-'), putchar('|'), std_print_number(u, 0, 16, 'a', 4, '0'), putchar('|');
    std_print_number(u, 0, 16, 'A', 0, ' '), putchar('|'), std_print_number(u, 0, 16, 'A', 8, ' '), putchar('|');
    std_print_number(u, 0, 16, 'a', 8, '0'), putchar('|'), std_print_number(u, 0, 8, 'a', 0, ' '), putchar('|');
    std_print_number(u, 0, 8, 'a', 12, ' '), putchar('|'), std_print_number(u, 0, 16, 'a', 0, ' '), putchar('\n');
}

static void print_texts(int by_c, char *text, unsigned a)
{
    if (by_c) {
        printf("%s|%5s|%-5s|%.2s|%5.2s|%-5.2s|%.0s|%3c|%-3c|", text, text, text, text, text, text, text, 'x', 'y');
        printf("%s|%5s\n", text + a, text + a), puts(text), puts(text + a), fputs(text, stdout);
        return;
    }
    std_print_text(text), putchar('|'), std_print_padded_text(text, -1, 5, 0), putchar('|');
    std_print_padded_text(text, -1, 5, 1), putchar('|'), std_print_padded_text(text, 2, 0, 0), putchar('|');
    std_print_padded_text(text, 2, 5, 0), putchar('|'), std_print_padded_text(text, 2, 5, 1), putchar('|');
    std_print_padded_text(text, 0, 0, 0), putchar('|'), std_pad(2, ' '), putchar('x'), putchar('|');
    putchar('y'), std_pad(2, ' '), putchar('|'), std_print_text_at(text, a), putchar('|');
    std_print_padded_text_at(text, a, -1, 5, 0), putchar('\n'), std_puts(text), std_puts_at(text, a);
    std_print_text(text);
}

static int print(int by_c)
{
    for (unsigned i = 0; i < sizeof NUMBERS / sizeof NUMBERS[0]; i++)
        print_numbers(by_c, NUMBERS[i], NUMBERS[i]);
    print_texts(by_c, "", 0), print_texts(by_c, "a", 1), print_texts(by_c, "ab", 1), print_texts(by_c, "a\xe9%d\\", 2);
    print_texts(by_c, "abcdefgh", 3);
    return 0;
}

/* ---- input */

static int lines(int by_c)
{
    char line[SIZE];
    for (int n = 0, size = 1, got; n < 2000; n++, size = n % 7 + (n > 3)) {
        memset(line, '#', SIZE);
        int at = by_c || n % 2 ? 0 : 3;  /* std_fgets and std_fgets_at by turns */
        if (by_c)
            got = fgets(line, size, stdin) != NULL;
        else
            got = at ? std_fgets_at(line, at, size) : std_fgets(line, size);
        printf("%d ", got);
        for (int i = 0; i < 8; i++)
            printf("%02x", (unsigned char)line[at + i]);
        putchar('\n');
    }
    return 0;
}

static int numbers(int by_c)
{
    for (int n = 0; n < 2000; n++) {
        int number = -5, got, c;
        if (by_c)
            got = scanf("%d", &number), c = getchar();
        else
            got = std_scan_int(), number = got == 1 ? std_scanned : -5, c = std_getchar();
        printf("%d %d %d\n", got, number, c);
        if (n % 3 == 0)
            c = by_c ? ungetc(c, stdin) : std_ungetc(c), printf("%d\n", c);
    }
    return 0;
}

int main(int count, char **words)
{
    const char *what = count > 1 ? words[1] : "values";
    int by_c = count > 2 && strcmp(words[2], "c") == 0;
    if (strcmp(what, "print") == 0)
        return print(by_c);
    if (strcmp(what, "lines") == 0)
        return lines(by_c);
    return strcmp(what, "numbers") == 0 ? numbers(by_c) : values();
}
