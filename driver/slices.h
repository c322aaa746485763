/* The slices that a script lends: their elements, and the words that stand for them. */
#ifndef SLICES_H
#define SLICES_H

#include "words.h"

#include <stddef.h>
#include <stdint.h>
#include <stdio.h>

/* What stands in a slice, and how it is written: a byte of a text has two hexadecimal digits, a small whole number is decimal. */
enum form { SIGNED_32, UNSIGNED_8, UNSIGNED_16, UNSIGNED_64, FLOAT, BYTE };

union element {
    int32_t i32;
    uint8_t u8;
    uint16_t u16;
    uint64_t u64;
    double f64;
};

/* There is always room for one element, so that a slice that is lent has a pointer even where it is empty. */
struct slice {
    const char *name;
    enum form form;
    size_t count;
    size_t room;
    void *at;
};

/* An empty slice: 0 where there is no memory for it. */
int slice_begin(struct slice *s, const char *name, enum form form);
void slice_end(struct slice *s);

/* Whether a word is an element of this form. */
int element_of(struct word w, enum form form, union element *to);

/* Adds an element so many times: 0 where there is no memory for it. */
int slice_add(struct slice *s, union element e, size_t times);

/* Adds the elements of another slice of the same form so many times: 0 where there is no memory for them. */
int slice_add_all(struct slice *to, const struct slice *from, size_t times);

/* Nothing happens where there is no such element. */
void slice_put(struct slice *s, size_t at, union element e);
void slice_keep(struct slice *s, size_t count);

/* A slice of bytes becomes the bytes of another slice, each element's most significant first: 0 where there is no memory for them. */
int slice_pack(struct slice *to, const struct slice *from);

/* Gives every NaN of a slice of floats the one pattern that a call's NaNs are printed by: which one it wrote means nothing. */
void slice_one_nan(struct slice *s);

/* The slice as a `set` command, and the hash of its words. */
void slice_print(const struct slice *s, FILE *out);
uint64_t slice_digest(const struct slice *s);

#endif
