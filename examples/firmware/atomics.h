/* The atomic type by its name of C11, in C and in C++, which has it elsewhere. */
#ifndef ATOMICS_H
#define ATOMICS_H

#ifdef __cplusplus
#include <atomic>
using std::atomic_uint;
#else
#include <stdatomic.h>
#endif

#endif
