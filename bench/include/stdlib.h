/* For a compiler that comes without headers: only what bench/ and examples/ use. */
#ifndef STDLIB_H
#define STDLIB_H
#include <stddef.h>
int atoi(const char *);
double strtod(const char *, char **);
long strtol(const char *, char **, int);
void qsort(void *, size_t, size_t, int (*)(const void *, const void *));
#endif
