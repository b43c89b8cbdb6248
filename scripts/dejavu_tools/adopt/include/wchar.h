#ifndef _WCHAR_H
#define _WCHAR_H
#include <stddef.h>
#include <stdio.h>
#define WEOF 4294967295u
typedef unsigned int wint_t;
wint_t fgetwc(FILE *file);
wint_t fputwc(wchar_t c, FILE *file);
wint_t getwc(FILE *file);
wint_t getwchar(void);
wint_t putwchar(wchar_t c);
size_t wcslen(const wchar_t *s);
int wcwidth(wchar_t c);
int wprintf(const wchar_t *format, ...);
#endif
