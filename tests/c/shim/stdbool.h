/* <stdbool.h>, which says nothing to C++. */
#ifndef SHIM_STDBOOL_H
#define SHIM_STDBOOL_H
#ifndef __cplusplus
#define bool _Bool
#define true 1
#define false 0
#endif
#endif
