#ifndef _STDIO_H
#define _STDIO_H
#include <stddef.h>
#include <stdarg.h>
#define EOF (-1)
#define BUFSIZ 8192
#define SEEK_SET 0
#define SEEK_CUR 1
#define SEEK_END 2
#define _IOFBF 0
#define _IOLBF 1
#define _IONBF 2
typedef struct __file FILE;
extern FILE *stdin;
extern FILE *stdout;
extern FILE *stderr;
int fclose(FILE *file);
int feof(FILE *file);
int ferror(FILE *file);
int fflush(FILE *file);
int fgetc(FILE *file);
char *fgets(char *s, int size, FILE *file);
FILE *fopen(const char *path, const char *mode);
int fprintf(FILE *file, const char *format, ...);
int fputc(int c, FILE *file);
int fputs(const char *s, FILE *file);
size_t fread(void *to, size_t size, size_t n, FILE *file);
int fscanf(FILE *file, const char *format, ...);
int fseek(FILE *file, long offset, int whence);
long ftell(FILE *file);
size_t fwrite(const void *from, size_t size, size_t n, FILE *file);
int getc(FILE *file);
int getchar(void);
void perror(const char *s);
int printf(const char *format, ...);
int putc(int c, FILE *file);
int putchar(int c);
int puts(const char *s);
int remove(const char *path);
int rename(const char *from, const char *to);
void rewind(FILE *file);
int scanf(const char *format, ...);
int setvbuf(FILE *file, char *buffer, int mode, size_t size);
void setbuf(FILE *file, char *buffer);
int snprintf(char *to, size_t size, const char *format, ...);
int sprintf(char *to, const char *format, ...);
int sscanf(const char *s, const char *format, ...);
int ungetc(int c, FILE *file);
int vfprintf(FILE *file, const char *format, va_list list);
int vprintf(const char *format, va_list list);
int vsnprintf(char *to, size_t size, const char *format, va_list list);
#endif
