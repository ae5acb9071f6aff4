/* The few names of <stdint.h> that the tests use, so that the gate needs no C headers of the machine. */
#ifndef SHIM_STDINT_H
#define SHIM_STDINT_H
typedef __UINT8_TYPE__ uint8_t;
typedef __UINT16_TYPE__ uint16_t;
typedef __UINT32_TYPE__ uint32_t;
typedef __UINT64_TYPE__ uint64_t;
typedef __INT32_TYPE__ int32_t;
typedef __INT64_TYPE__ int64_t;
#endif
