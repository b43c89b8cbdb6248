#include <stdio.h>
#include <string.h>

#include "calc.h"

typedef enum { LINE_OK, LINE_LONG, LINE_EOF } status_t;
enum command { CMD_DEC, CMD_HEX, CMD_VARS, CMD_CLEAR, CMD_QUIT, CMD_NONE };

static const char command_names[][8] = { "dec", "hex", "vars", "clear", "quit" };

static const char *const messages[] = {
    [ERR_SYNTAX] = "syntax error",
    [ERR_PAREN] = "unbalanced parenthesis",
    [ERR_UNSET] = "variable not set",
    [ERR_DIVZERO] = "division by zero",
    [ERR_OVERFLOW] = "overflow",
    [ERR_COMMAND] = "unknown command",
    [ERR_LINE] = "line too long",
};

variable_t vars[NVARS];

static enum command radix = CMD_DEC;
static int line_no, error_count;

static status_t read_line(char buf[], int size)
{
    int c, n = 0;
    bool cut = false;

    while ((c = getchar()) != EOF && c != '\n') {
        if (n < size - 1)
            buf[n++] = (char)c;
        else
            cut = true;
    }
    buf[n] = '\0';
    return cut ? LINE_LONG : c == EOF && n == 0 ? LINE_EOF : LINE_OK;
}

static void report(error_t error, int column)
{
    printf("error: line %d, column %d: %s\n", line_no, column, messages[error]);
    error_count++;
}

static void print_value(value_t v)
{
    if (radix == CMD_HEX)
        printf("0x%x\n", (unsigned)v);
    else
        printf("%d\n", (int)v);
}

static void list_vars(void)
{
    for (int i = 0; i < NVARS; i++) {
        if (!vars[i].set)
            continue;
        printf("%c = ", 'a' + i);
        print_value(vars[i].value);
    }
}

/* Returns false when the session is to end. */
static bool run_command(const char name[])
{
    enum command cmd = CMD_DEC;

    while (cmd != CMD_NONE && strcmp(name, command_names[cmd]) != 0)
        cmd++;
    switch (cmd) {
    case CMD_DEC:
    case CMD_HEX:
        radix = cmd;
        break;
    case CMD_CLEAR:
        memset(vars, 0, sizeof vars);
        break;
    case CMD_VARS:
        list_vars();
        break;
    case CMD_QUIT:
        return false;
    case CMD_NONE:
        report(ERR_COMMAND, 1);
    }
    return true;
}

static void run_expression(const char line[])
{
    result_t r = evaluate(line);

#ifdef CALC_TRACE
    fprintf(stderr, "%d: %s -> %d\n", line_no, line, (int)r.value);
#endif
    if (r.error != ERR_NONE)
        report(r.error, r.column);
    else if (r.target >= 0)
        vars[r.target] = (variable_t){ r.value, true };
    else
        print_value(r.value);
}

int main(void)
{
    char line[LINE_LEN + 1];
    status_t status;
    bool running = true;

    while (running && (status = read_line(line, sizeof line)) != LINE_EOF) {
        line_no++;
        if (status == LINE_LONG)
            report(ERR_LINE, LINE_LEN + 1);
        else if (line[0] == ':')
            running = run_command(&line[1]);
        else if (line[strspn(line, " \t\r")] != '\0' && line[0] != '#')
            run_expression(line);
    }
    if (error_count > 0)
        fprintf(stderr, "calc: %d error%s\n", error_count, error_count == 1 ? "" : "s");
    return error_count > 0;
}
