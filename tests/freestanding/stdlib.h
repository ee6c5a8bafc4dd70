/* For a compiler that brings no headers of its own. */
#ifndef FREESTANDING_STDLIB_H
#define FREESTANDING_STDLIB_H
long long strtoll(const char *, char **, int);
#endif
