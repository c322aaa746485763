#include "mesh.h"

#include "surge.h"

#include <inttypes.h>
#include <stdio.h>
#include <stdlib.h>
#include <string.h>

static int text_grow(struct text *t)
{
    size_t room = t->room == 0 ? 4096 : 2 * t->room;
    uint8_t *at = room < t->room ? NULL : realloc(t->at, room);
    if (at == NULL)
        return 0;
    t->at = at;
    t->room = room;
    return 1;
}

static int text_add(struct text *t, FILE *in)
{
    while (!feof(in) && !ferror(in) && (t->length < t->room || text_grow(t)))
        t->length += fread(t->at + t->length, 1, t->room - t->length, in);
    return feof(in);
}

int text_read(struct text *t, const char *name)
{
    FILE *in = fopen(name, "rb");
    int done = in != NULL && text_add(t, in);
    if (in != NULL)
        fclose(in);
    if (!done)
        fprintf(stderr, "%s: %s cannot be read\n", program, name);
    return done;
}

static int is_digit(uint8_t byte)
{
    return byte >= '0' && byte <= '9';
}

/* The number that comes next on a line, at most `most`, and 0 where none comes. */
static size_t count_next(const struct text *t, size_t *at, size_t most)
{
    size_t count = 0;
    while (*at < t->length && t->at[*at] == ' ')
        ++*at;
    for (; *at < t->length && is_digit(t->at[*at]); ++*at) {
        count = 10 * count + (size_t)(t->at[*at] - '0');
        if (count > most)
            count = most;
    }
    return count;
}

/*
 * How much room to lend: E and N as the second line has them, and no more than row 2 takes. Nothing is refused here. The call looks at the
 * line itself, and answers 30 where it is malformed and 33 where the room is not what it asks for.
 */
static void mesh_size(struct mesh *m, const struct text *grid)
{
    const uint8_t *feed = memchr(grid->at, '\n', grid->length);
    size_t at = feed == NULL ? grid->length : (size_t)(feed - grid->at) + 1;
    m->triangles = count_next(grid, &at, TRIANGLES);
    m->nodes = count_next(grid, &at, NODES);
}

int mesh_read(struct mesh *m, const struct text *grid)
{
    size_t place;
    double value;
    uint32_t number;
    mesh_size(m, grid);
    number = surge_read_grid(m->x, m->nodes, m->y, m->nodes, m->h, m->nodes, m->tri, 3 * m->triangles, &place, &value, grid->at, grid->length);
    if (number != 0)
        printf("line %zu: refused %" PRIu32 "\n", place, number);
    return number == 0;
}

/* As many as the file has: it is the calls that ask for N of them, none above 2. Spaces and line ends are passed over. */
int mesh_kinds(struct mesh *m, const struct text *kinds)
{
    size_t i;
    for (i = 0; i < kinds->length && m->kinds <= NODES; i++) {
        if (is_digit(kinds->at[i]))
            m->kind[m->kinds++] = (uint8_t)(kinds->at[i] - '0');
        else if (kinds->at[i] != ' ' && kinds->at[i] != '\r' && kinds->at[i] != '\n') {
            fprintf(stderr, "%s: the kinds are not digits\n", program);
            return 0;
        }
    }
    return 1;
}
