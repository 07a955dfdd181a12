/* For a compiler that comes without headers: only what bench/ and examples/ use. */
#ifndef STDIO_H
#define STDIO_H
#include <stddef.h>
typedef struct file FILE;
extern FILE *stderr;
int fclose(FILE *);
char *fgets(char *, int, FILE *);
FILE *fopen(const char *, const char *);
int fprintf(FILE *, const char *, ...);
size_t fread(void *, size_t, size_t, FILE *);
size_t fwrite(const void *, size_t, size_t, FILE *);
int printf(const char *, ...);
int snprintf(char *, size_t, const char *, ...);
int sscanf(const char *, const char *, ...);
#endif
