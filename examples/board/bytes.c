#include "bytes.h"

#include <string.h>

static void bytes_of(uint8_t *to, uint64_t bits, size_t width)
{
    for (; width > 0; width--, bits >>= 8)
        to[width - 1] = (uint8_t)bits;
}

void bytes_of_i32(uint8_t *to, const int32_t *from, size_t count)
{
    size_t i;
    for (i = 0; i < count; i++)
        bytes_of(to + 4 * i, (uint32_t)from[i], 4);
}

void bytes_of_u16(uint8_t *to, const uint16_t *from, size_t count)
{
    size_t i;
    for (i = 0; i < count; i++)
        bytes_of(to + 2 * i, from[i], 2);
}

void bytes_of_f64(uint8_t *to, const double *from, size_t count)
{
    size_t i;
    for (i = 0; i < count; i++) {
        uint64_t pattern;
        memcpy(&pattern, &from[i], sizeof pattern);
        bytes_of(to + 8 * i, pattern, 8);
    }
}
