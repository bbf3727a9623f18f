/* What the tests use of stdint.h, for a compiler without headers. */
#pragma once
typedef __UINT8_TYPE__ uint8_t;
typedef __UINT16_TYPE__ uint16_t;
typedef __UINT32_TYPE__ uint32_t;
typedef __UINT64_TYPE__ uint64_t;
typedef __INT64_TYPE__ int64_t;
#define SIZE_MAX __SIZE_MAX__
#define UINT64_MAX __UINT64_MAX__
#define INT64_C(number) number##L
#define UINT64_C(number) number##UL
