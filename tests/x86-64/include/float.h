/* What the tests use of float.h, for a compiler without headers. */
#pragma once
#define FLT_RADIX __FLT_RADIX__
#define DBL_MANT_DIG __DBL_MANT_DIG__
