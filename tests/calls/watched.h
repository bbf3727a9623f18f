/* What valgrind is told of a lent buffer, in the build that runs under it. Without it there is nobody to tell. */
#ifndef WATCHED_H
#define WATCHED_H

#ifdef UNDER_VALGRIND
#include <valgrind/memcheck.h>
/* Not to be touched at all. */
#define forbid(bytes, size) ((void)VALGRIND_MAKE_MEM_NOACCESS(bytes, size))
/* Nothing may depend on what stands there. */
#define forget(bytes, size) ((void)VALGRIND_MAKE_MEM_UNDEFINED(bytes, size))
/* It has to be written by now. */
#define demand(bytes, size) ((void)VALGRIND_CHECK_MEM_IS_DEFINED(bytes, size))
/* As any memory. */
#define allow(bytes, size) ((void)VALGRIND_MAKE_MEM_DEFINED(bytes, size))
#else
#define forbid(bytes, size) ((void)(bytes), (void)(size))
#define forget(bytes, size) ((void)(bytes), (void)(size))
#define demand(bytes, size) ((void)(bytes), (void)(size))
#define allow(bytes, size) ((void)(bytes), (void)(size))
#endif

#endif
