/* A mesh from a grid file and from a list of kinds, for the example programs that take one. */
#ifndef MESH_H
#define MESH_H

#include <stddef.h>
#include <stdint.h>

/* The largest mesh that row 2 takes. */
enum { NODES = 4096, TRIANGLES = 8192 };

/* The mesh as the calls take it. There is room for one kind too many, so that a list that is too long is still another length than N. */
struct mesh {
    int32_t x[NODES], y[NODES];
    double h[NODES];
    uint16_t tri[3 * TRIANGLES];
    uint8_t kind[NODES + 1];
    size_t nodes, triangles, kinds;
};

/* Its slices in the order in which every call on a run has them. The parameters follow. */
#define MESH(m) (m)->x, (m)->nodes, (m)->y, (m)->nodes, (m)->tri, 3 * (m)->triangles, (m)->h, (m)->nodes, (m)->kind, (m)->kinds

/* The bytes of a file. There is room for one byte at least, since a slice that is lent is never NULL. */
struct text {
    uint8_t *at;
    size_t length, room;
};

/* The program's own name, which stands before what is said on standard error. Each program gives it. */
extern const char program[];

/* All of a file: 0, and a word on standard error, where it cannot be read or memory cannot hold it. `at` is the caller's to free, read or not. */
int text_read(struct text *t, const char *name);

/* The mesh of a grid file, by surge_read_grid: 0, and the refusal on standard output, where it is refused. */
int mesh_read(struct mesh *m, const struct text *grid);

/* The kinds that a file lists, one digit each: 0, and a word on standard error, where it has something else. */
int mesh_kinds(struct mesh *m, const struct text *kinds);

#endif
