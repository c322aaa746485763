#include "slices.h"

#include <stdlib.h>
#include <string.h>

/* The longest word is a float's 16 digits or a 64-bit number's 20. */
enum { WORD_ROOM = 24 };

static size_t width(enum form form)
{
    switch (form) {
    case SIGNED_32:
        return sizeof(int32_t);
    case UNSIGNED_16:
        return sizeof(uint16_t);
    case UNSIGNED_64:
        return sizeof(uint64_t);
    case FLOAT:
        return sizeof(double);
    case UNSIGNED_8:
    case BYTE:
        break;
    }
    return sizeof(uint8_t);
}

static void *place(const struct slice *s, size_t i)
{
    return (char *)s->at + i * width(s->form);
}

int slice_begin(struct slice *s, const char *name, enum form form)
{
    s->name = name;
    s->form = form;
    s->count = 0;
    s->room = 1;
    s->at = malloc(width(form));
    return s->at != NULL;
}

void slice_end(struct slice *s)
{
    free(s->at);
    s->at = NULL;
}

/* Room for at least `needed` elements: twice as much as before where that is more, so that adding one by one stays quick. */
static int grow(struct slice *s, size_t needed)
{
    size_t most = SIZE_MAX / width(s->form);
    size_t room = s->room > most / 2 ? most : 2 * s->room;
    void *at;
    if (needed <= s->room)
        return 1;
    if (needed > most)
        return 0;
    if (room < needed)
        room = needed;
    at = realloc(s->at, room * width(s->form));
    if (at == NULL)
        return 0;
    s->at = at;
    s->room = room;
    return 1;
}

/* Every member of a union starts where the union starts, so its first bytes are the element. */
int slice_add(struct slice *s, union element e, size_t times)
{
    size_t i;
    if (times > SIZE_MAX - s->count || !grow(s, s->count + times))
        return 0;
    for (i = 0; i < times; i++)
        memcpy(place(s, s->count + i), &e, width(s->form));
    s->count += times;
    return 1;
}

/* The times are bounded by what memory holds, and where there is nothing to add they are not gone through. */
int slice_add_all(struct slice *to, const struct slice *from, size_t times)
{
    size_t count = from->count, end;
    if (count == 0)
        return 1;
    if (times > (SIZE_MAX - to->count) / count || !grow(to, to->count + count * times))
        return 0;
    for (end = to->count + count * times; to->count < end; to->count += count)
        memcpy(place(to, to->count), from->at, count * width(from->form));
    return 1;
}

void slice_put(struct slice *s, size_t at, union element e)
{
    if (at < s->count)
        memcpy(place(s, at), &e, width(s->form));
}

void slice_keep(struct slice *s, size_t count)
{
    if (count < s->count)
        s->count = count;
}

/* The bits of element i, a float's by its own pattern. */
static uint64_t bits(const struct slice *s, size_t i)
{
    union element e;
    memcpy(&e, place(s, i), width(s->form));
    switch (s->form) {
    case SIGNED_32:
        return (uint32_t)e.i32;
    case UNSIGNED_16:
        return e.u16;
    case UNSIGNED_64:
        return e.u64;
    case FLOAT:
        return pattern_of(e.f64);
    case UNSIGNED_8:
    case BYTE:
        break;
    }
    return e.u8;
}

/* The bytes are as many as the elements' own, so that their number cannot wrap. */
int slice_pack(struct slice *to, const struct slice *from)
{
    size_t wide = width(from->form), i, k;
    uint8_t *byte;
    if (!grow(to, from->count * wide))
        return 0;
    to->count = from->count * wide;
    byte = to->at;
    for (i = 0; i < from->count; i++)
        for (k = wide; k > 0; k--)
            *byte++ = (uint8_t)(bits(from, i) >> 8 * (k - 1));
    return 1;
}

void slice_one_nan(struct slice *s)
{
    size_t i;
    for (i = 0; i < s->count; i++) {
        union element e;
        memcpy(&e, place(s, i), width(s->form));
        e.u64 = pattern_of_made(e.f64);
        memcpy(place(s, i), &e, width(s->form));
    }
}

int element_of(struct word w, enum form form, union element *to)
{
    uint64_t v = 0;
    int is = 0;
    switch (form) {
    case SIGNED_32:
        return signed_of(w, &to->i32);
    case FLOAT:
        return float_of(w, &to->f64);
    case UNSIGNED_64:
        return unsigned_of(w, UINT64_MAX, &to->u64);
    case UNSIGNED_16:
        is = unsigned_of(w, UINT16_MAX, &v);
        to->u16 = (uint16_t)v;
        break;
    case UNSIGNED_8:
        is = unsigned_of(w, UINT8_MAX, &v);
        to->u8 = (uint8_t)v;
        break;
    case BYTE:
        is = hex_of(w, 2, &v);
        to->u8 = (uint8_t)v;
        break;
    }
    return is;
}

/* Each of these writes a word that no 0 ends, and gives its length. Slices are long and this program is run emulated, so no printf is used. */
static size_t spell_hex(uint64_t v, size_t digits, char *to)
{
    size_t i;
    for (i = digits; i > 0; i--, v /= 16)
        to[i - 1] = "0123456789ABCDEF"[v % 16];
    return digits;
}

static size_t spell_decimal(uint64_t v, char *to)
{
    size_t length = 1;
    uint64_t rest;
    for (rest = v / 10; rest != 0; rest /= 10)
        length++;
    for (rest = length; rest > 0; rest--, v /= 10)
        to[rest - 1] = (char)('0' + v % 10);
    return length;
}

/* A signed number, by its 32 bits. */
static size_t spell_signed(uint64_t v, char *to)
{
    if (v <= INT32_MAX)
        return spell_decimal(v, to);
    *to = '-';
    return 1 + spell_decimal(UINT64_C(0x100000000) - v, to + 1);
}

/* The word of element i. */
static size_t spell(const struct slice *s, size_t i, char to[WORD_ROOM])
{
    uint64_t v = bits(s, i);
    switch (s->form) {
    case SIGNED_32:
        return spell_signed(v, to);
    case FLOAT:
        return spell_hex(v, 16, to);
    case BYTE:
        return spell_hex(v, 2, to);
    case UNSIGNED_8:
    case UNSIGNED_16:
    case UNSIGNED_64:
        break;
    }
    return spell_decimal(v, to);
}

void slice_print(const struct slice *s, FILE *out)
{
    char word[WORD_ROOM];
    size_t i;
    fprintf(out, "set %s", s->name);
    for (i = 0; i < s->count; i++) {
        size_t length = spell(s, i, word);
        fputc(' ', out);
        fwrite(word, 1, length, out);
    }
    fputc('\n', out);
}

/* 64-bit FNV-1a. */
static uint64_t hashed(uint64_t hash, const char *bytes, size_t count)
{
    size_t i;
    for (i = 0; i < count; i++)
        hash = (hash ^ (uint8_t)bytes[i]) * 0x100000001B3u;
    return hash;
}

uint64_t slice_digest(const struct slice *s)
{
    uint64_t hash = 0xCBF29CE484222325u;
    char word[WORD_ROOM];
    size_t i;
    for (i = 0; i < s->count; i++) {
        hash = hashed(hash, word, spell(s, i, word));
        hash = hashed(hash, "\n", 1);
    }
    return hash;
}
