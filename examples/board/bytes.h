/* Numbers as the gauges' calls take them: bytes, the most significant first, in whatever order this machine holds them. */
#ifndef BYTES_H
#define BYTES_H

#include <stddef.h>
#include <stdint.h>

/* Each writes `count` numbers one after the other: 4, 2 and 8 bytes each, a float as its pattern. */
void bytes_of_i32(uint8_t *to, const int32_t *from, size_t count);
void bytes_of_u16(uint8_t *to, const uint16_t *from, size_t count);
void bytes_of_f64(uint8_t *to, const double *from, size_t count);

#endif
