/* What the tests use of stddef.h, for a compiler without headers. */
#pragma once
typedef __SIZE_TYPE__ size_t;
#define NULL ((void *)0)
