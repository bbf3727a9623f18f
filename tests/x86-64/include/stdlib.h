/* What the tests use of stdlib.h, for a compiler without headers. */
#pragma once
#include <stddef.h>
void *malloc(size_t size);
void free(void *memory);
_Noreturn void exit(int status);
