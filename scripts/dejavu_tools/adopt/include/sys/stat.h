#ifndef _SYS_STAT_H
#define _SYS_STAT_H
#include <sys/types.h>
#define S_IFMT 0170000
#define S_IFDIR 0040000
#define S_IFREG 0100000
#define S_ISDIR(mode) (((mode) & S_IFMT) == S_IFDIR)
#define S_ISREG(mode) (((mode) & S_IFMT) == S_IFREG)
#define S_IRUSR 0400
#define S_IWUSR 0200
#define S_IXUSR 0100
struct stat { dev_t st_dev; ino_t st_ino; mode_t st_mode; nlink_t st_nlink; uid_t st_uid; gid_t st_gid; off_t st_size;
              time_t st_atime, st_mtime, st_ctime; };
int chmod(const char *path, mode_t mode);
int fstat(int file, struct stat *to);
int lstat(const char *path, struct stat *to);
int mkdir(const char *path, mode_t mode);
int stat(const char *path, struct stat *to);
mode_t umask(mode_t mode);
#endif
