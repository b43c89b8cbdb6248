#ifndef _STDARG_H
#define _STDARG_H
typedef struct __va_list *va_list;
void va_start(va_list list, ...);
void va_end(va_list list);
#endif
