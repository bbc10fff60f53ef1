// `assert(condition)` ends a program whose condition does not hold, and puts where. With NDEBUG it
// does nothing.
#undef assert
#ifdef NDEBUG
#define assert(condition) ((void)0)
#else
#define assert(condition) ((condition) ? (void)0 : ds_assertion(#condition, __FILE__, __LINE__))
#endif

#ifndef ASSERT_H
#define ASSERT_H

_Noreturn void ds_assertion(const char *condition, const char *file, int line);

#endif
