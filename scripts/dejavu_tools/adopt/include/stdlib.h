#ifndef _STDLIB_H
#define _STDLIB_H
#include <stddef.h>
#define EXIT_SUCCESS 0
#define EXIT_FAILURE 1
#define RAND_MAX 2147483647
void abort(void);
int abs(int value);
int atexit(void (*function)(void));
double atof(const char *s);
int atoi(const char *s);
long atol(const char *s);
void *bsearch(const void *key, const void *base, size_t n, size_t size, int (*compare)(const void *, const void *));
void *calloc(size_t n, size_t size);
void exit(int status);
void free(void *object);
char *getenv(const char *name);
long labs(long value);
void *malloc(size_t size);
void qsort(void *base, size_t n, size_t size, int (*compare)(const void *, const void *));
int rand(void);
void *realloc(void *object, size_t size);
void srand(unsigned int seed);
double strtod(const char *s, char **end);
long strtol(const char *s, char **end, int base);
unsigned long strtoul(const char *s, char **end, int base);
int system(const char *command);
#endif
