/*
 * The files that the amplifier has in its flash, as concise DCFs. Each source is made of the list of its name, which a person writes:
 *
 *     tools/dcf write --c configuration examples/firmware/configuration.list examples/firmware/configuration.c
 */
#ifndef CONFIGURATION_H
#define CONFIGURATION_H

#include <stdint.h>

#ifdef __cplusplus
extern "C" {
#endif

/* The machine's settings. */
extern const uint8_t configuration[];
extern const uint64_t configuration_length;

/* Settings with the limits the wrong way round, which the node refuses. */
extern const uint8_t swapped[];
extern const uint64_t swapped_length;

#ifdef __cplusplus
}
#endif

#endif
