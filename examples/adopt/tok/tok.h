/* tok.h - the tokens of a small C-like language */
#ifndef TOK_H
#define TOK_H

#include <stdbool.h>
#include <stddef.h>
#include <stdint.h>

#define TEXT_SIZE 64            /* longest token text, with its NUL */
#define LINE_SIZE 128           /* longest source line, with its NUL */
#define COUNT_OF(a) (sizeof(a) / sizeof((a)[0]))

enum token_kind {
    TOK_END, TOK_KEYWORD, TOK_IDENT, TOK_NUMBER, TOK_STRING, TOK_CHAR,
    TOK_OPERATOR, TOK_PUNCT, TOK_ERROR, TOK_KINDS
};

enum lex_error {
    ERR_NONE, ERR_UNKNOWN, ERR_STRING, ERR_CHAR, ERR_ESCAPE, ERR_COMMENT,
    ERR_NUMBER, ERR_TOKEN, ERR_LINE
};

typedef struct {
    enum token_kind kind;
    enum lex_error error;       /* of a TOK_ERROR */
    int line, column;
    uint32_t value;             /* of a number or a character */
    size_t length;
    char text[TEXT_SIZE];       /* without quotes, escapes resolved */
} token_t;

token_t lex_next(void);

#endif
