#include "words.h"

#include <string.h>

struct words words_of(const char *line, size_t length)
{
    struct words w = {{line, length}, 1};
    return w;
}

int next_word(struct words *from, struct word *to)
{
    const char *space;
    if (!from->more)
        return 0;
    *to = from->left;
    space = memchr(to->at, ' ', to->length);
    if (space == NULL) {
        from->more = 0;
        return 1;
    }
    to->length = (size_t)(space - to->at);
    from->left.at = space + 1;
    from->left.length -= to->length + 1;
    return 1;
}

int is_text(struct word w, const char *text)
{
    return w.length == strlen(text) && memcmp(w.at, text, w.length) == 0;
}

/* The value of a word of decimal digits; where it is larger than any uint64_t, that type's largest, and `beyond` is set. */
static int decimal(struct word w, uint64_t *to, int *beyond)
{
    uint64_t v = 0;
    size_t i;
    *beyond = 0;
    for (i = 0; i < w.length; i++) {
        uint64_t digit;
        if (w.at[i] < '0' || w.at[i] > '9')
            return 0;
        digit = (uint64_t)(w.at[i] - '0');
        if (*beyond || v > (UINT64_MAX - digit) / 10) {
            *beyond = 1;
            v = UINT64_MAX;
        } else {
            v = 10 * v + digit;
        }
    }
    *to = v;
    return w.length != 0;
}

int unsigned_of(struct word w, uint64_t most, uint64_t *to)
{
    uint64_t v;
    int beyond;
    if (!decimal(w, &v, &beyond) || beyond || v > most)
        return 0;
    *to = v;
    return 1;
}

/* A leading `-` stands only before a number that is below zero. */
int signed_of(struct word w, int32_t *to)
{
    uint64_t size;
    int below = w.length != 0 && w.at[0] == '-';
    if (below) {
        w.at++;
        w.length--;
    }
    if (!unsigned_of(w, below ? 2147483648u : 2147483647u, &size) || (below && size == 0))
        return 0;
    *to = (int32_t)(below ? -(int64_t)size : (int64_t)size);
    return 1;
}

int count_of(struct word w, size_t *to)
{
    uint64_t v;
    int beyond;
    if (!decimal(w, &v, &beyond))
        return 0;
    *to = v > SIZE_MAX ? SIZE_MAX : (size_t)v;
    return 1;
}

int hex_of(struct word w, size_t digits, uint64_t *to)
{
    uint64_t v = 0;
    size_t i;
    if (w.length != digits)
        return 0;
    for (i = 0; i < digits; i++) {
        char c = w.at[i];
        if (c >= '0' && c <= '9')
            v = 16 * v + (uint64_t)(c - '0');
        else if (c >= 'A' && c <= 'F')
            v = 16 * v + (uint64_t)(c - 'A') + 10;
        else
            return 0;
    }
    *to = v;
    return 1;
}

int float_of(struct word w, double *to)
{
    uint64_t pattern;
    if (!hex_of(w, 16, &pattern))
        return 0;
    memcpy(to, &pattern, sizeof pattern);
    return 1;
}

uint64_t pattern_of(double v)
{
    uint64_t pattern;
    memcpy(&pattern, &v, sizeof pattern);
    return pattern;
}

uint64_t pattern_of_made(double v)
{
    return v != v ? 0x7FF8000000000000u : pattern_of(v);
}
