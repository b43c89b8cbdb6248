/* tok - print the tokens of a source text */
#include <ctype.h>
#include <stdio.h>
#include "tok.h"

#define MAX_ERRORS 6
#define PLURAL(n) ((n) == 1 ? "" : "s")

static const char kind_names[][9] = {
    "end", "keyword", "ident", "number", "string", "char", "operator",
    "punct", "error",
};

static const char *const error_texts[] = {
    [ERR_UNKNOWN] = "unknown character", [ERR_STRING] = "unterminated string",
    [ERR_CHAR] = "bad character literal", [ERR_ESCAPE] = "bad escape",
    [ERR_COMMENT] = "unterminated comment", [ERR_NUMBER] = "bad number",
    [ERR_TOKEN] = "token too long", [ERR_LINE] = "line too long",
};

static void print_text(const char text[], size_t length)
{
    size_t i;

    for (i = 0; i < length; i++)
        if (isprint((unsigned char)text[i]))
            putchar(text[i]);
        else
            printf("\\x%02x", (unsigned char)text[i]);
}

static void print_token(token_t t)
{
    printf("%3d:%-3d %-8s ", t.line, t.column, kind_names[t.kind]);
    if (t.kind == TOK_ERROR)
        printf("%s: ", error_texts[t.error]);
    print_text(t.text, t.length);
    if (t.kind == TOK_NUMBER || t.kind == TOK_CHAR)
        printf(" = %u (0x%x)", t.value, t.value);
    putchar('\n');
}

int main(void)
{
    static int counts[TOK_KINDS];
    int kind, total = 0;
    token_t t;

    for (t = lex_next(); t.kind != TOK_END; t = lex_next(), total++) {
#ifdef TRACE
        fprintf(stderr, "kind %d, line %d\n", t.kind, t.line);
#endif
        print_token(t);
        if (++counts[t.kind] == MAX_ERRORS && t.kind == TOK_ERROR) {
            fprintf(stderr, "tok: too many errors, giving up\n");
            return 2;
        }
    }
    puts("--");
    for (kind = TOK_KEYWORD; kind < TOK_KINDS; kind++)
        if (counts[kind] > 0)
            printf("%-8s %5d\n", kind_names[kind], counts[kind]);
    printf("%d line%s, %d token%s\n", t.line, PLURAL(t.line), total, PLURAL(total));
    return counts[TOK_ERROR] > 0 ? 1 : 0;
}
