#include <assert.h>
#include <ctype.h>
#include <string.h>

#include "calc.h"

enum { PREC_SUM = 1, PREC_PRODUCT };

static const struct { char symbol; uint8_t prec; } ops[] = {
    { '+', PREC_SUM }, { '-', PREC_SUM },
    { '*', PREC_PRODUCT }, { '/', PREC_PRODUCT }, { '%', PREC_PRODUCT },
};

static char text[LINE_LEN + 1];
static int pos;
static result_t result;

static value_t expression(int min_prec);

/* Only the first error of a line counts. */
static value_t fail(error_t error, int at)
{
    if (result.error == ERR_NONE) {
        result.error = error;
        result.column = at + 1;
    }
    return 0;
}

static char peek(void)
{
    while (isspace((unsigned char)text[pos]))
        pos++;
    return text[pos];
}

static value_t narrow(int64_t v, int at)
{
    if (v < INT32_MIN || v > INT32_MAX)
        return fail(ERR_OVERFLOW, at);
    return (value_t)v;
}

static value_t number(void)
{
    int64_t n;
    int start;

    for (n = 0, start = pos; isdigit((unsigned char)text[pos]); pos++) {
        n = n * 10 + (text[pos] - '0');
        if (n > INT32_MAX)
            return fail(ERR_OVERFLOW, start);
    }
    return (value_t)n;
}

static value_t apply(char op, value_t a, value_t b, int at)
{
    int64_t wide = a;

    switch (op) {
    case '+': return narrow(wide + b, at);
    case '-': return narrow(wide - b, at);
    case '*': return narrow(wide * b, at);
    }
    assert(op == '/' || op == '%');
    if (b == 0)
        return fail(ERR_DIVZERO, at);
    return narrow(op == '/' ? wide / b : wide % b, at);
}

static value_t operand(void)
{
    char c = peek();
    int start = pos;
    value_t v;

    if (isdigit((unsigned char)c))
        return number();
    pos++;
    if (islower((unsigned char)c)) {
        variable_t var = vars[VAR_INDEX(c)];

        return var.set ? var.value : fail(ERR_UNSET, start);
    }
    switch (c) {
    case '(':
        v = expression(PREC_SUM);
        if (peek() != ')')
            return fail(ERR_PAREN, start);
        pos++;
        return v;
    case '-':
        return narrow(-(int64_t)operand(), start);
    default:
        pos--;
        return fail(ERR_SYNTAX, start);
    }
}

static value_t expression(int min_prec)
{
    value_t left = operand();

    while (result.error == ERR_NONE) {
        char c = peek();
        int at = pos;
        size_t i = 0;

        while (i < COUNT_OF(ops) && ops[i].symbol != c)
            i++;
        if (i == COUNT_OF(ops) || ops[i].prec < min_prec)
            break;
        pos++;
        left = apply(c, left, expression(ops[i].prec + 1), at);
    }
    return left;
}

result_t evaluate(const char line[])
{
    char c;

    assert(strlen(line) < sizeof text);
    strcpy(text, line);
    result = (result_t){ .error = ERR_NONE, .target = -1 };
    pos = 0;

    if (islower((unsigned char)(c = peek()))) {
        int start = pos++;

        if (peek() == '=') {
            result.target = VAR_INDEX(c);
            pos++;
        } else {
            pos = start;
        }
    }
    result.value = expression(PREC_SUM);
    if ((c = peek()) != '\0' && c != '#')
        fail(c == ')' ? ERR_PAREN : ERR_SYNTAX, pos);
    return result;
}
