/* What the tests use of stdio.h, for a compiler without headers. */
#pragma once
#include <stddef.h>
typedef struct file FILE;
extern FILE *stdin, *stdout, *stderr;
int printf(const char *format, ...);
int fprintf(FILE *stream, const char *format, ...);
size_t fread(void *into, size_t size, size_t count, FILE *stream);
