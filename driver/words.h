/* A line of a script as words, and the numbers that words stand for. */
#ifndef WORDS_H
#define WORDS_H

#include <stddef.h>
#include <stdint.h>

/* Part of a line: it ends by its length, and may hold any byte. */
struct word {
    const char *at;
    size_t length;
};

/* The words of a line that are still to be taken. */
struct words {
    struct word left;
    int more;
};

struct words words_of(const char *line, size_t length);

/* Takes the next word: 0 where there is none. Two spaces have an empty word between them, which is of no form. */
int next_word(struct words *from, struct word *to);

/* Whether a word is this text. */
int is_text(struct word w, const char *text);

/* Each of these says whether the word is of its form, and only then writes the number. */
int signed_of(struct word w, int32_t *to);
int unsigned_of(struct word w, uint64_t most, uint64_t *to);
int hex_of(struct word w, size_t digits, uint64_t *to);
int float_of(struct word w, double *to);

/* A count or a place: one that is beyond every slice stays beyond every slice. */
int count_of(struct word w, size_t *to);

/*
 * The pattern by which a float is printed: its own where a slice holds it. One that a call made, the value of an answer, a number of a
 * forcing that was read or what a gauge has, has the same pattern for every NaN. A double is moved in a register that keeps each pattern,
 * a signalling NaN's too.
 */
uint64_t pattern_of(double v);
uint64_t pattern_of_made(double v);

#endif
