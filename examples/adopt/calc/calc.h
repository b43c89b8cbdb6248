#ifndef CALC_H
#define CALC_H

#include <stdbool.h>
#include <stdint.h>

#define LINE_LEN    120     /* longest accepted input line */
#define NVARS       26

#define VAR_INDEX(c)    ((c) - 'a')
#define COUNT_OF(a)     (sizeof (a) / sizeof (a)[0])

typedef int32_t value_t;

typedef enum {
    ERR_NONE, ERR_SYNTAX, ERR_PAREN, ERR_UNSET, ERR_DIVZERO, ERR_OVERFLOW, ERR_COMMAND, ERR_LINE
} error_t;

typedef struct { value_t value; bool set; } variable_t;

typedef struct {
    error_t error;
    int column;             /* where the error is, from 1 */
    int target;             /* index of the variable assigned to, or -1 */
    value_t value;
} result_t;

extern variable_t vars[NVARS];

result_t evaluate(const char line[]);

#endif
