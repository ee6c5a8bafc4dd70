/* For a compiler that brings no headers of its own: what the C programs here use, as the C library of x86-64 Linux declares it. */
#ifndef FREESTANDING_STDIO_H
#define FREESTANDING_STDIO_H
#include <stddef.h>
typedef struct FILE FILE;
extern FILE *stderr;
FILE *fopen(const char *, const char *);
size_t fread(void *, size_t, size_t, FILE *);
int ferror(FILE *);
int fclose(FILE *);
int printf(const char *, ...);
int fprintf(FILE *, const char *, ...);
int snprintf(char *, size_t, const char *, ...);
#endif
