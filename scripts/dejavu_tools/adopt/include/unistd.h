#ifndef _UNISTD_H
#define _UNISTD_H
#include <sys/types.h>
#define STDIN_FILENO 0
#define STDOUT_FILENO 1
#define STDERR_FILENO 2
#define F_OK 0
#define X_OK 1
#define W_OK 2
#define R_OK 4
extern char *optarg;
extern int optind, opterr, optopt;
void _exit(int status);
int access(const char *path, int mode);
unsigned int alarm(unsigned int seconds);
int chdir(const char *path);
int close(int file);
int dup(int file);
int dup2(int from, int to);
int execvp(const char *path, char *const words[]);
pid_t fork(void);
char *getcwd(char *to, size_t size);
int getopt(int count, char *const words[], const char *options);
pid_t getpid(void);
uid_t getuid(void);
int isatty(int file);
off_t lseek(int file, off_t offset, int whence);
int pause(void);
int pipe(int ends[2]);
ssize_t read(int file, void *to, size_t size);
int rmdir(const char *path);
unsigned int sleep(unsigned int seconds);
int unlink(const char *path);
int usleep(unsigned int microseconds);
ssize_t write(int file, const void *from, size_t size);
#endif
