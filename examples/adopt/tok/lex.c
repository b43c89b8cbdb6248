#include <assert.h>
#include <ctype.h>
#include <stdio.h>
#include <string.h>
#include "tok.h"

#define PEEK() ((unsigned char)line[pos])
#define TAKE() put((unsigned char)line[pos++])
#define IS_WORD(c) (isalnum(c) || (c) == '_')
#define DIGIT(c) (isdigit(c) ? (c) - '0' : tolower(c) - 'a' + 10)

static const char *const keywords[] = {
    "break", "case", "char", "const", "continue", "do", "else", "for", "if",
    "int", "return", "struct", "switch", "void", "while",
};

static char line[LINE_SIZE];
static size_t pos, len;         /* the next character and the end in line */
static int lines;
static bool line_cut, text_cut; /* something didn't fit */
static token_t tok;             /* the token being read */

/* Read the next line without its newline; false at the end of the input. */
static bool read_line(void)
{
    int c;

    pos = len = 0;
    while ((c = getchar()) != EOF && c != '\n')
        if (len < sizeof(line) - 1)
            line[len++] = (char)c;
        else
            line_cut = true;
    line[len] = '\0';
    if (c == EOF && len == 0)
        return false;
    lines++;
    return true;
}

static int put(int c)
{
    if (tok.length < sizeof(tok.text) - 1)
        tok.text[tok.length++] = (char)c;
    else
        text_cut = true;
    return c;
}

static token_t finish(enum token_kind kind, enum lex_error error)
{
    if (text_cut && error == ERR_NONE)
        error = ERR_TOKEN;
    tok.kind = error == ERR_NONE ? kind : TOK_ERROR;
    tok.error = error;
    return tok;
}

static token_t word(void)
{
    enum token_kind kind = TOK_IDENT;
    size_t i;

    while (IS_WORD(PEEK()))
        TAKE();
    for (i = 0; i < COUNT_OF(keywords) && kind == TOK_IDENT; i++)
        if (strcmp(tok.text, keywords[i]) == 0)
            kind = TOK_KEYWORD;
    return finish(kind, ERR_NONE);
}

static token_t number(void)
{
    uint32_t base = 10, digit;
    bool bad = false;
    int c, n;

    if (PEEK() == '0' && (line[pos + 1] == 'x' || line[pos + 1] == 'X')) {
        base = 16;
        TAKE(), TAKE();
    }
    for (n = 0; IS_WORD(PEEK()); n++) {
        c = TAKE();
        digit = isxdigit(c) ? (uint32_t)DIGIT(c) : base;
        if (digit >= base || tok.value > (UINT32_MAX - digit) / base)
            bad = true;
        else
            tok.value = tok.value * base + digit;
    }
    return finish(TOK_NUMBER, bad || n == 0 ? ERR_NUMBER : ERR_NONE);
}

/* The character that the escape after a backslash stands for, or -1. */
static int escape(void)
{
    int c = (unsigned char)line[pos++], value, n;

    switch (c) {
    case 'n': return '\n';
    case 't': return '\t';
    case '0': return '\0';
    case '\\': case '\'': case '"': return c;
    case 'x':
        for (n = 0, value = 0; n < 2 && isxdigit(PEEK()); n++, pos++)
            value = value * 16 + DIGIT(PEEK());
        return n > 0 ? value : -1;
    }
    pos--;
    return -1;
}

/* Read a string or a character literal, whose value is its only character. */
static token_t quoted(enum token_kind kind, enum lex_error unterminated)
{
    enum lex_error error = ERR_NONE;
    int c, quote = PEEK();

    for (pos++; PEEK() != quote; ) {
        if (pos >= len)
            return finish(kind, unterminated);
        c = (unsigned char)line[pos++];
        if (c == '\\' && (c = escape()) < 0)
            error = ERR_ESCAPE;
        else
            put(c);
    }
    pos++;
    if (kind == TOK_CHAR && tok.length != 1 && error == ERR_NONE)
        error = ERR_CHAR;
    tok.value = (unsigned char)tok.text[0];
    return finish(kind, error);
}

static token_t operator(void)
{
    const int c = TAKE();

    switch (c) {
    case '(': case ')': case '{': case '}': case '[': case ']':
    case ',': case ';':
        return finish(TOK_PUNCT, ERR_NONE);
    case '-': case '+': case '&': case '|': case '<': case '>':
        if (PEEK() == c || (c == '-' && PEEK() == '>')) {
            TAKE();
            break;
        }
        /* fall through */
    case '*': case '/': case '%': case '^': case '!': case '=':
        if (PEEK() == '=')
            TAKE();
        break;
    case '~': case '?': case ':': case '.': break;
    default:
        return finish(TOK_OPERATOR, ERR_UNKNOWN);
    }
    return finish(TOK_OPERATOR, ERR_NONE);
}

/* Skip a block comment; false if the input ends first. */
static bool skip_comment(void)
{
    for (pos += 2; line[pos] != '*' || line[pos + 1] != '/'; )
        if (pos < len)
            pos++;
        else if (!read_line())
            return false;
    pos += 2;
    return true;
}

token_t lex_next(void)
{
    for (;;) {
        while (isspace(PEEK()))
            pos++;
        tok = (token_t){ .line = lines, .column = (int)pos + 1 };
        text_cut = false;
        if (pos >= len && line_cut) {
            line_cut = false;
            return finish(TOK_ERROR, ERR_LINE);
        } else if (pos >= len) {
            if (!read_line())
                return finish(TOK_END, ERR_NONE);
        } else if (PEEK() == '/' && line[pos + 1] == '/') {
            pos = len;
        } else if (PEEK() == '/' && line[pos + 1] == '*') {
            if (!skip_comment())
                return finish(TOK_ERROR, ERR_COMMENT);
        } else {
            break;
        }
    }
    assert(pos < len && tok.length == 0);
    if (isdigit(PEEK()))
        return number();
    if (IS_WORD(PEEK()))
        return word();
    if (PEEK() == '"')
        return quoted(TOK_STRING, ERR_STRING);
    return PEEK() == '\'' ? quoted(TOK_CHAR, ERR_CHAR) : operator();
}
