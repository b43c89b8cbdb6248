#ifndef _GETOPT_H
#define _GETOPT_H
#define no_argument 0
#define required_argument 1
#define optional_argument 2
struct option { const char *name; int has_arg; int *flag; int val; };
extern char *optarg;
extern int optind, opterr, optopt;
int getopt(int count, char *const words[], const char *options);
int getopt_long(int count, char *const words[], const char *options, const struct option *longer, int *found);
#endif
