#ifndef _SETJMP_H
#define _SETJMP_H
typedef struct { long registers[25]; } jmp_buf[1];
void longjmp(jmp_buf place, int value);
int setjmp(jmp_buf place);
#endif
