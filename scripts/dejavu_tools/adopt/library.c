/*
 * Functions of the C library, written in the language of docs/language.md. library.py cuts this file at its empty
 * lines, one definition a piece, and gives of a function `std_NAME_at` also `std_NAME`, which has no offsets. What a
 * definition names stands before it. A result is one of C's: where C asks for a number other than 0, it is 1.
 */

/* ---- <ctype.h>, in the "C" locale; EOF belongs to no class */

int std_isalpha(int c)
{
    return (c >= 'a' && c <= 'z') || (c >= 'A' && c <= 'Z');
}

int std_isdigit(int c)
{
    return c >= '0' && c <= '9';
}

int std_isalnum(int c)
{
    return (c >= 'a' && c <= 'z') || (c >= 'A' && c <= 'Z') || (c >= '0' && c <= '9');
}

int std_isspace(int c)
{
    return c == ' ' || (c >= '\t' && c <= '\r');
}

int std_isblank(int c)
{
    return c == ' ' || c == '\t';
}

int std_isupper(int c)
{
    return c >= 'A' && c <= 'Z';
}

int std_islower(int c)
{
    return c >= 'a' && c <= 'z';
}

int std_isxdigit(int c)
{
    return (c >= '0' && c <= '9') || (c >= 'a' && c <= 'f') || (c >= 'A' && c <= 'F');
}

int std_isprint(int c)
{
    return c >= ' ' && c <= '~';
}

int std_isgraph(int c)
{
    return c > ' ' && c <= '~';
}

int std_iscntrl(int c)
{
    return (c >= 0 && c < ' ') || c == 127;
}

int std_ispunct(int c)
{
    return (c > ' ' && c < '0') || (c > '9' && c < 'A') || (c > 'Z' && c < 'a') || (c > 'z' && c <= '~');
}

int std_toupper(int c)
{
    return c >= 'a' && c <= 'z' ? c - 'a' + 'A' : c;
}

int std_tolower(int c)
{
    return c >= 'A' && c <= 'Z' ? c - 'A' + 'a' : c;
}

/* ---- <stdlib.h> */

int std_abs(int value)
{
    return value < 0 ? -value : value;
}

int std_atoi_at(char text[], unsigned text_at)
{
    unsigned i = 0;
    int value = 0;
    int negative = 0;
    while (text[text_at + i] == ' ' || (text[text_at + i] >= '\t' && text[text_at + i] <= '\r')) {
        i = i + 1;
    }
    if (text[text_at + i] == '-' || text[text_at + i] == '+') {
        negative = text[text_at + i] == '-';
        i = i + 1;
    }
    while (text[text_at + i] >= '0' && text[text_at + i] <= '9') {
        value = value * 10 - (text[text_at + i] - '0');
        i = i + 1;
    }
    return negative ? value : -value;
}

/* ---- <string.h>: bytes are compared as unsigned ones; those that give a pointer give nothing here */

unsigned std_strlen_at(char text[], unsigned text_at)
{
    unsigned length = 0;
    while (text[text_at + length] != 0) {
        length = length + 1;
    }
    return length;
}

int std_strcmp_at(char left[], unsigned left_at, char right[], unsigned right_at)
{
    unsigned i = 0;
    while (left[left_at + i] == right[right_at + i] && left[left_at + i] != 0) {
        i = i + 1;
    }
    return (left[left_at + i] & 255) - (right[right_at + i] & 255);
}

int std_strncmp_at(char left[], unsigned left_at, char right[], unsigned right_at, unsigned n)
{
    unsigned i = 0;
    while (i < n) {
        if (left[left_at + i] != right[right_at + i] || left[left_at + i] == 0) {
            return (left[left_at + i] & 255) - (right[right_at + i] & 255);
        }
        i = i + 1;
    }
    return 0;
}

void std_strcpy_at(char to[], unsigned to_at, char from[], unsigned from_at)
{
    unsigned i = 0;
    while (from[from_at + i] != 0) {
        to[to_at + i] = from[from_at + i];
        i = i + 1;
    }
    to[to_at + i] = 0;
}

void std_strncpy_at(char to[], unsigned to_at, char from[], unsigned from_at, unsigned n)
{
    unsigned i = 0;
    while (i < n && from[from_at + i] != 0) {
        to[to_at + i] = from[from_at + i];
        i = i + 1;
    }
    while (i < n) {
        to[to_at + i] = 0;
        i = i + 1;
    }
}

void std_strcat_at(char to[], unsigned to_at, char from[], unsigned from_at)
{
    unsigned end = 0;
    unsigned i = 0;
    while (to[to_at + end] != 0) {
        end = end + 1;
    }
    while (from[from_at + i] != 0) {
        to[to_at + end + i] = from[from_at + i];
        i = i + 1;
    }
    to[to_at + end + i] = 0;
}

void std_strncat_at(char to[], unsigned to_at, char from[], unsigned from_at, unsigned n)
{
    unsigned end = 0;
    unsigned i = 0;
    while (to[to_at + end] != 0) {
        end = end + 1;
    }
    while (i < n && from[from_at + i] != 0) {
        to[to_at + end + i] = from[from_at + i];
        i = i + 1;
    }
    to[to_at + end + i] = 0;
}

void std_memset_at(char to[], unsigned to_at, int byte, unsigned n)
{
    unsigned i = 0;
    while (i < n) {
        to[to_at + i] = byte;
        i = i + 1;
    }
}

void std_memcpy_at(char to[], unsigned to_at, char from[], unsigned from_at, unsigned n)
{
    unsigned i = 0;
    while (i < n) {
        to[to_at + i] = from[from_at + i];
        i = i + 1;
    }
}

/* From that end at which nothing is written that is still to be read, where both are parts of one array. */
void std_memmove_at(char to[], unsigned to_at, char from[], unsigned from_at, unsigned n)
{
    unsigned i = 0;
    if (to_at <= from_at) {
        while (i < n) {
            to[to_at + i] = from[from_at + i];
            i = i + 1;
        }
    } else {
        i = n;
        while (i > 0) {
            i = i - 1;
            to[to_at + i] = from[from_at + i];
        }
    }
}

void std_memmove(char to[], char from[], unsigned n)
{
    std_memcpy(to, from, n);
}

int std_memcmp_at(char left[], unsigned left_at, char right[], unsigned right_at, unsigned n)
{
    unsigned i = 0;
    while (i < n) {
        if (left[left_at + i] != right[right_at + i]) {
            return (left[left_at + i] & 255) - (right[right_at + i] & 255);
        }
        i = i + 1;
    }
    return 0;
}

unsigned std_strspn_at(char text[], unsigned text_at, char set[], unsigned set_at)
{
    unsigned i = 0;
    while (text[text_at + i] != 0) {
        unsigned k = 0;
        while (set[set_at + k] != 0 && set[set_at + k] != text[text_at + i]) {
            k = k + 1;
        }
        if (set[set_at + k] == 0) {
            return i;
        }
        i = i + 1;
    }
    return i;
}

unsigned std_strcspn_at(char text[], unsigned text_at, char set[], unsigned set_at)
{
    unsigned i = 0;
    while (text[text_at + i] != 0) {
        unsigned k = 0;
        while (set[set_at + k] != 0 && set[set_at + k] != text[text_at + i]) {
            k = k + 1;
        }
        if (set[set_at + k] != 0) {
            return i;
        }
        i = i + 1;
    }
    return i;
}

/* How far behind its argument the result is, or -1 for NULL; so do all of these. */
int std_strchr_index_at(char text[], unsigned text_at, int c)
{
    unsigned i = 0;
    while (text[text_at + i] != (char)c) {
        if (text[text_at + i] == 0) {
            return -1;
        }
        i = i + 1;
    }
    return i;
}

/* Whether the result isn't NULL. */
int std_strchr_found_at(char text[], unsigned text_at, int c)
{
    return std_strchr_index_at(text, text_at, c) >= 0;
}

int std_strrchr_index_at(char text[], unsigned text_at, int c)
{
    int last = -1;
    unsigned i = 0;
    while (text[text_at + i] != 0) {
        if (text[text_at + i] == (char)c) {
            last = i;
        }
        i = i + 1;
    }
    if ((char)c == 0) {
        last = i;
    }
    return last;
}

int std_memchr_index_at(char bytes[], unsigned bytes_at, int c, unsigned n)
{
    unsigned i = 0;
    while (i < n) {
        if (bytes[bytes_at + i] == (char)c) {
            return i;
        }
        i = i + 1;
    }
    return -1;
}

int std_memchr_found_at(char bytes[], unsigned bytes_at, int c, unsigned n)
{
    return std_memchr_index_at(bytes, bytes_at, c, n) >= 0;
}

int std_strpbrk_index_at(char text[], unsigned text_at, char set[], unsigned set_at)
{
    unsigned i = std_strcspn_at(text, text_at, set, set_at);
    return text[text_at + i] == 0 ? -1 : (int)i;
}

int std_strpbrk_found_at(char text[], unsigned text_at, char set[], unsigned set_at)
{
    return std_strpbrk_index_at(text, text_at, set, set_at) >= 0;
}

int std_strstr_index_at(char text[], unsigned text_at, char part[], unsigned part_at)
{
    unsigned i = 0;
    while (1) {
        unsigned k = 0;
        while (part[part_at + k] != 0 && text[text_at + i + k] == part[part_at + k]) {
            k = k + 1;
        }
        if (part[part_at + k] == 0) {
            return i;
        }
        if (text[text_at + i + k] == 0) {
            return -1;
        }
        i = i + 1;
    }
}

int std_strstr_found_at(char text[], unsigned text_at, char part[], unsigned part_at)
{
    return std_strstr_index_at(text, text_at, part, part_at) >= 0;
}

/* ---- memset and memcpy of numbers; n counts elements, and `value` is what each becomes */

void std_fill_int_at(int to[], unsigned to_at, int value, unsigned n)
{
    unsigned i = 0;
    while (i < n) {
        to[to_at + i] = value;
        i = i + 1;
    }
}

void std_fill_unsigned_at(unsigned to[], unsigned to_at, unsigned value, unsigned n)
{
    unsigned i = 0;
    while (i < n) {
        to[to_at + i] = value;
        i = i + 1;
    }
}

void std_copy_int_at(int to[], unsigned to_at, int from[], unsigned from_at, unsigned n)
{
    unsigned i = 0;
    while (i < n) {
        to[to_at + i] = from[from_at + i];
        i = i + 1;
    }
}

void std_copy_unsigned_at(unsigned to[], unsigned to_at, unsigned from[], unsigned from_at, unsigned n)
{
    unsigned i = 0;
    while (i < n) {
        to[to_at + i] = from[from_at + i];
        i = i + 1;
    }
}

/*
 * ---- output into a char array, by `sprintf` and `snprintf`: how many bytes were written so far, those that had no room
 * among them, and the room for bytes and the 0 behind them. library.py makes a function `std_write_..` of each that
 * prints, from here on, which writes to an array `to` from `start` on.
 */

unsigned std_written;

unsigned std_room;

void std_write_byte(char to[], unsigned start, int byte)
{
    if (std_written + 1 < std_room) {
        to[start + std_written] = byte;
    }
    std_written = std_written + 1;
}

void std_write_end(char to[], unsigned start)
{
    if (std_room > 0) {
        to[start + (std_written < std_room ? std_written : std_room - 1)] = 0;
    }
}

/* ---- output: `printf` of what isn't %d, %u or %c, and `puts` */

void std_pad(int count, int byte)
{
    while (count > 0) {
        putchar(byte);
        count = count - 1;
    }
}

/* %s, and `fputs` to stdout. */
void std_print_text_at(char text[], unsigned text_at)
{
    unsigned i = 0;
    while (text[text_at + i] != 0) {
        putchar(text[text_at + i]);
        i = i + 1;
    }
}

void std_puts_at(char text[], unsigned text_at)
{
    std_print_text_at(text, text_at);
    putchar('\n');
}

/* %s with a precision `most`, -1 where there is none, and a width, and with the flag - where `left` isn't 0. */
void std_print_padded_text_at(char text[], unsigned text_at, int most, int width, int left)
{
    int length = 0;
    while (length != most && text[text_at + length] != 0) {
        length = length + 1;
    }
    if (!left) {
        std_pad(width - length, ' ');
    }
    for (int i = 0; i < length; i = i + 1) {
        putchar(text[text_at + i]);
    }
    if (left) {
        std_pad(width - length, ' ');
    }
}

/*
 * The digits of a number behind a sign, 0 where there is none. `ten` is the digit for 10, 'a' or 'A', and `fill` what
 * the width is filled with: ' ' before the sign, '0' behind it, and '-' for blanks at the end. %5u is (n, 0, 10, 'a',
 * 5, ' '), %02x is (n, 0, 16, 'a', 2, '0'), and %-4X is (n, 0, 16, 'A', 4, '-').
 */
void std_print_number(unsigned value, int sign, unsigned base, int ten, int width, int fill)
{
    char digits[32];
    int count = 0;
    do {
        unsigned digit = value % base;
        digits[count] = digit < 10 ? '0' + digit : ten + digit - 10;
        count = count + 1;
        value = value / base;
    } while (value != 0);
    int missing = width - count - (sign != 0);
    if (fill == ' ') {
        std_pad(missing, ' ');
    }
    if (sign != 0) {
        putchar(sign);
    }
    if (fill == '0') {
        std_pad(missing, '0');
    }
    while (count > 0) {
        count = count - 1;
        putchar(digits[count]);
    }
    if (fill == '-') {
        std_pad(missing, ' ');
    }
}

/* %d with a width, filled as by std_print_number; `plus` is the sign of what isn't negative: 0, '+' or ' '. */
void std_print_int(int value, int plus, int width, int fill)
{
    if (value < 0) {
        std_print_number(0u - value, '-', 10, 'a', width, fill);
    } else {
        std_print_number(value, plus, 10, 'a', width, fill);
    }
}

/* ---- input */

/* The byte that was pushed back, and how many there are: a second one traps. */
int std_ahead[1];
int std_ahead_count;

/* Where this is among the functions of a unit, all that reads there reads by it. */
int std_getchar(void)
{
    if (std_ahead_count > 0) {
        std_ahead_count = std_ahead_count - 1;
        return std_ahead[std_ahead_count];
    }
    return getchar();
}

/* The next std_getchar() gives this byte. */
int std_ungetc(int c)
{
    if (c == EOF) {
        return EOF;
    }
    std_ahead[std_ahead_count] = c & 255;
    std_ahead_count = std_ahead_count + 1;
    return c & 255;
}

/* 1 where C gives the line, and 0 where C gives NULL. */
int std_fgets_at(char line[], unsigned line_at, int size)
{
    int count = 0;
    int c = 0;
    if (size < 1) {
        return 0;
    }
    while (count < size - 1 && c != '\n') {
        c = getchar();
        if (c == EOF) {
            break;
        }
        line[line_at + count] = c;
        count = count + 1;
    }
    if (count == 0 && c == EOF) {
        return 0;
    }
    line[line_at + count] = 0;
    return 1;
}

/* The number that was read last. */
int std_scanned;

/* `scanf` of one %d: 1 where it was read, and then `std_scanned` has it; 0, or EOF. */
int std_scan_int(void)
{
    int c = std_getchar();
    while (c == ' ' || (c >= '\t' && c <= '\r')) {
        c = std_getchar();
    }
    if (c == EOF) {
        return EOF;
    }
    int negative = c == '-';
    if (c == '-' || c == '+') {
        c = std_getchar();
    }
    if (c < '0' || c > '9') {
        std_ungetc(c);
        return 0;
    }
    int value = 0;
    while (c >= '0' && c <= '9') {
        value = value * 10 - (c - '0');
        c = std_getchar();
    }
    std_ungetc(c);
    std_scanned = negative ? value : -value;
    return 1;
}
