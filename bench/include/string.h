/* For a compiler that comes without headers: only what bench/ and examples/ use. */
#ifndef STRING_H
#define STRING_H
#include <stddef.h>
int memcmp(const void *, const void *, size_t);
void *memcpy(void *, const void *, size_t);
void *memmove(void *, const void *, size_t);
void *memset(void *, int, size_t);
int strcmp(const char *, const char *);
size_t strcspn(const char *, const char *);
char *strrchr(const char *, int);
size_t strspn(const char *, const char *);
#endif
