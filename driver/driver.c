/*
 * Reads the scripts (docs/SCRIPT.md) that are named, or one from standard input, makes their calls over include/surge.h and include/gauges.h,
 * and prints what they hand back. Exit status: 0 where each script ended, 2 where one has a bad line, 1 where a file or memory failed.
 */
#include "calls.h"

#include <inttypes.h>
#include <stdlib.h>
#include <string.h>

enum outcome { DONE, BAD, NO_MEMORY };

/* ---- words of a command */

static int is_last(struct words *w)
{
    struct word none;
    return !next_word(w, &none);
}

/* The next word, as a slice that the script holds: NULL where it names none. */
static struct slice *named(struct script *s, struct words *w)
{
    struct word name;
    int i;
    if (!next_word(w, &name))
        return NULL;
    for (i = 0; i < SLICES; i++)
        if (is_text(name, s->slices[i].name))
            return &s->slices[i];
    return NULL;
}

static int take_count(struct words *w, size_t *to)
{
    struct word word;
    return next_word(w, &word) && count_of(word, to);
}

static int take_u32(struct words *w, uint32_t *to)
{
    struct word word;
    uint64_t v;
    if (!next_word(w, &word) || !unsigned_of(word, UINT32_MAX, &v))
        return 0;
    *to = (uint32_t)v;
    return 1;
}

static int take_i32(struct words *w, int32_t *to)
{
    struct word word;
    return next_word(w, &word) && signed_of(word, to);
}

static int take_float(struct words *w, double *to)
{
    struct word word;
    return next_word(w, &word) && float_of(word, to);
}

static int take_element(struct words *w, enum form form, union element *to)
{
    struct word word;
    return next_word(w, &word) && element_of(word, form, to);
}

static int take_u8(struct words *w, uint8_t *to)
{
    union element e;
    if (!take_element(w, UNSIGNED_8, &e))
        return 0;
    *to = e.u8;
    return 1;
}

/* ---- setting */

static enum outcome add(struct script *s, struct words *w)
{
    struct slice *to = named(s, w);
    struct word word;
    union element e;
    if (to == NULL)
        return BAD;
    while (next_word(w, &word)) {
        if (!element_of(word, to->form, &e))
            return BAD;
        if (!slice_add(to, e, 1))
            return NO_MEMORY;
    }
    return DONE;
}

static enum outcome set(struct script *s, struct words *w)
{
    struct words ahead = *w;
    struct slice *to = named(s, &ahead);
    if (to == NULL)
        return BAD;
    slice_keep(to, 0);
    return add(s, w);
}

static enum outcome fill(struct script *s, struct words *w)
{
    struct slice *to = named(s, w);
    size_t count;
    union element e;
    if (to == NULL || !take_count(w, &count) || !take_element(w, to->form, &e) || !is_last(w))
        return BAD;
    slice_keep(to, 0);
    return slice_add(to, e, count) ? DONE : NO_MEMORY;
}

static enum outcome put(struct script *s, struct words *w)
{
    struct slice *to = named(s, w);
    size_t at;
    union element e;
    if (to == NULL || !take_count(w, &at) || !take_element(w, to->form, &e) || !is_last(w))
        return BAD;
    slice_put(to, at, e);
    return DONE;
}

static enum outcome keep(struct script *s, struct words *w)
{
    struct slice *to = named(s, w);
    size_t count;
    if (to == NULL || !take_count(w, &count) || !is_last(w))
        return BAD;
    slice_keep(to, count);
    return DONE;
}

static enum outcome parameters(struct script *s, struct words *w)
{
    int floats = take_float(w, &s->dt) && take_float(w, &s->tau) && take_float(w, &s->k) && take_float(w, &s->f);
    return floats && take_u8(w, &s->advection) && is_last(w) ? DONE : BAD;
}

static enum outcome clock_is(struct script *s, struct words *w)
{
    return take_u32(w, &s->step) && is_last(w) ? DONE : BAD;
}

/* The elements change places; the names stay. Both slices are of floats. */
static enum outcome swap(struct script *s, struct words *w)
{
    struct slice state = s->slices[STATE];
    if (!is_last(w))
        return BAD;
    s->slices[STATE] = s->slices[NEXT];
    s->slices[STATE].name = state.name;
    state.name = s->slices[NEXT].name;
    s->slices[NEXT] = state;
    return DONE;
}

/* The forcing goes to the end of the list. */
static enum outcome queue(struct script *s, struct words *w)
{
    size_t count;
    if (!take_count(w, &count) || !is_last(w))
        return BAD;
    return slice_add_all(&s->slices[FORCINGS], &s->slices[FORCING], count) ? DONE : NO_MEMORY;
}

/* The mesh and the state as the bytes that the gauges' calls take. */
static enum outcome pack(struct script *s, struct words *w)
{
    static const enum slice_name pairs[][2] = {
        {XBYTES, X}, {YBYTES, Y}, {TRIBYTES, TRI}, {HBYTES, H}, {KINDBYTES, KIND}, {STATEBYTES, STATE},
    };
    size_t i;
    if (!is_last(w))
        return BAD;
    for (i = 0; i < sizeof pairs / sizeof pairs[0]; i++)
        if (!slice_pack(&s->slices[pairs[i][0]], &s->slices[pairs[i][1]]))
            return NO_MEMORY;
    return DONE;
}

/* ---- calls: by the command alone, with a number, or at a point */

static enum outcome call(struct script *s, struct words *w, void (*made)(struct script *))
{
    if (!is_last(w))
        return BAD;
    made(s);
    return DONE;
}

static enum outcome call_with(struct script *s, struct words *w, void (*made)(struct script *, uint32_t))
{
    uint32_t number;
    if (!take_u32(w, &number) || !is_last(w))
        return BAD;
    made(s, number);
    return DONE;
}

static enum outcome call_at(struct script *s, struct words *w, void (*made)(struct script *, int32_t, int32_t))
{
    int32_t px, py;
    if (!take_i32(w, &px) || !take_i32(w, &py) || !is_last(w))
        return BAD;
    made(s, px, py);
    return DONE;
}

static enum outcome command_open(struct script *s, struct words *w)
{
    return call(s, w, call_open);
}

static enum outcome command_step(struct script *s, struct words *w)
{
    return call(s, w, call_step);
}

static enum outcome command_step_all(struct script *s, struct words *w)
{
    return call(s, w, call_step_all);
}

static enum outcome command_save(struct script *s, struct words *w)
{
    return call(s, w, call_save);
}

static enum outcome command_load(struct script *s, struct words *w)
{
    return call(s, w, call_load);
}

static enum outcome command_read(struct script *s, struct words *w)
{
    return call_with(s, w, call_read);
}

static enum outcome command_grid(struct script *s, struct words *w)
{
    return call(s, w, call_grid);
}

static enum outcome command_locate(struct script *s, struct words *w)
{
    return call_at(s, w, call_gauge_locate);
}

static enum outcome command_add(struct script *s, struct words *w)
{
    return call_at(s, w, call_gauge_add);
}

static enum outcome command_elevation(struct script *s, struct words *w)
{
    return call_with(s, w, call_gauge_elevation);
}

static enum outcome command_update(struct script *s, struct words *w)
{
    return call(s, w, call_gauge_update);
}

static enum outcome command_peak(struct script *s, struct words *w)
{
    return call_with(s, w, call_gauge_peak);
}

/* ---- printing */

static enum outcome print(struct script *s, struct words *w)
{
    struct slice *which = named(s, w);
    if (which == NULL || !is_last(w))
        return BAD;
    slice_print(which, s->out);
    return DONE;
}

static enum outcome digest(struct script *s, struct words *w)
{
    struct slice *which = named(s, w);
    if (which == NULL || !is_last(w))
        return BAD;
    fprintf(s->out, "digest %s %zu %016" PRIX64 "\n", which->name, which->count, slice_digest(which));
    return DONE;
}

static enum outcome echo(struct script *s, struct words *w)
{
    struct words ahead = *w;
    struct word word;
    while (next_word(&ahead, &word))
        if (word.length == 0)
            return BAD;
    fputs("echo", s->out);
    while (next_word(w, &word)) {
        fputc(' ', s->out);
        fwrite(word.at, 1, word.length, s->out);
    }
    fputc('\n', s->out);
    return DONE;
}

/* ---- the script */

struct known {
    const char *name;
    enum outcome (*does)(struct script *, struct words *);
};

/* Does what the next word names: a bad line where it names nothing. */
static enum outcome command_of(const struct known *commands, size_t count, struct script *s, struct words *w)
{
    struct word name;
    size_t i;
    if (!next_word(w, &name))
        return BAD;
    for (i = 0; i < count; i++)
        if (is_text(name, commands[i].name))
            return commands[i].does(s, w);
    return BAD;
}

static enum outcome gauge(struct script *s, struct words *w)
{
    static const struct known commands[] = {
        {"locate", command_locate},
        {"add", command_add},
        {"elevation", command_elevation},
        {"update", command_update},
        {"peak", command_peak},
    };
    return command_of(commands, sizeof commands / sizeof commands[0], s, w);
}

static enum outcome command(struct script *s, const char *line, size_t length)
{
    static const struct known commands[] = {
        {"set", set},
        {"fill", fill},
        {"put", put},
        {"keep", keep},
        {"add", add},
        {"parameters", parameters},
        {"clock", clock_is},
        {"swap", swap},
        {"queue", queue},
        {"pack", pack},
        {"open", command_open},
        {"step", command_step},
        {"stepall", command_step_all},
        {"save", command_save},
        {"load", command_load},
        {"read", command_read},
        {"grid", command_grid},
        {"gauge", gauge},
        {"print", print},
        {"digest", digest},
        {"echo", echo},
    };
    struct words w = words_of(line, length);
    if (length == 0 || line[0] == '#')
        return DONE;
    return command_of(commands, sizeof commands / sizeof commands[0], s, &w);
}

/* The bytes of one line, with room that grows. */
struct text {
    char *at;
    size_t count;
    size_t room;
};

enum line_read { A_LINE, NO_LINE, UNENDED, NO_ROOM };

static int text_add(struct text *t, char c)
{
    if (t->count == t->room) {
        size_t room = t->room > SIZE_MAX / 2 ? SIZE_MAX : 2 * t->room;
        char *at = room == t->room ? NULL : realloc(t->at, room);
        if (at == NULL)
            return 0;
        t->at = at;
        t->room = room;
    }
    t->at[t->count++] = c;
    return 1;
}

/* Reads up to a line feed, which is not kept. */
static enum line_read read_line(struct text *t, FILE *in)
{
    int c;
    t->count = 0;
    while ((c = getc(in)) != EOF) {
        if (c == '\n')
            return A_LINE;
        if (!text_add(t, (char)c))
            return NO_ROOM;
    }
    return t->count == 0 ? NO_LINE : UNENDED;
}

/* Line by line to the end, or to the first line that is bad. A command is ended by a line feed, on the last line too. */
static enum outcome run(struct script *s, struct text *t, FILE *in)
{
    uint64_t number = 1;
    enum outcome o = DONE;
    enum line_read got;
    for (got = read_line(t, in); got == A_LINE; got = read_line(t, in), number++) {
        o = command(s, t->at, t->count);
        if (o != DONE)
            break;
    }
    if (got == NO_ROOM)
        o = NO_MEMORY;
    if (got == UNENDED && t->at[0] != '#')
        o = BAD;
    if (o == BAD)
        fprintf(s->out, "bad line %" PRIu64 "\n", number);
    return o;
}

static int run_all(FILE *in)
{
    struct script s;
    struct text t = {malloc(256), 0, 256};
    enum outcome o = NO_MEMORY;
    int failed;
    if (script_begin(&s, stdout) && t.at != NULL)
        o = run(&s, &t, in);
    script_end(&s);
    free(t.at);
    failed = ferror(in) != 0;
    failed = fflush(stdout) != 0 || ferror(stdout) || failed;
    if (o == NO_MEMORY)
        fputs("driver: no memory\n", stderr);
    else if (failed)
        fputs("driver: reading or writing failed\n", stderr);
    if (o == NO_MEMORY || failed)
        return 1;
    return o == BAD ? 2 : 0;
}

static int run_file(const char *name)
{
    FILE *in = fopen(name, "rb");
    int status;
    if (in == NULL) {
        fputs("driver: the script cannot be read\n", stderr);
        return 1;
    }
    status = run_all(in);
    fclose(in);
    return status;
}

int main(int count, char **words)
{
    int status = 0;
    int i;
    if (count < 2)
        return run_all(stdin);
    for (i = 1; i < count && status != 1; i++) {
        int ended = run_file(words[i]);
        if (ended != 0)
            status = ended;
    }
    return status;
}
