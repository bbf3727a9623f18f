/* What the tests use of string.h, for a compiler without headers. */
#pragma once
#include <stddef.h>
void *memcpy(void *to, const void *from, size_t size);
int memcmp(const void *one, const void *other, size_t size);
