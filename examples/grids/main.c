/*
 * A grid file from a C program: `main GRID [KINDS]` reads it by surge_read_grid, opens the mesh by surge_open, and says what it has.
 * Built and run from the repository's root:
 *
 *     rt staticlib capi
 *     tools/x86 cc target/grids examples/grids/main.c examples/grids/mesh.c target/staticlib/libcapi.a
 *     tools/x86 run target/grids examples/grids/harbour.grd examples/grids/harbour.kinds
 *
 * KINDS has a digit for each node, in the nodes' order; without it every node is free. What a call refuses is printed and explained in
 * docs/REFUSALS.md. Exit status: 0 where the mesh was opened, 1 where it was refused, 2 where a file cannot be read.
 */
#include "mesh.h"
#include "surge.h"

#include <inttypes.h>
#include <stdio.h>
#include <stdlib.h>

const char program[] = "grids";

/* With a time step of 1 s, tau, K and f 0, and advection off: it is the mesh that is asked about. */
static int mesh_open(const struct mesh *m)
{
    static double state[6 * NODES];
    size_t place;
    double value;
    uint32_t step;
    uint32_t number = surge_open(state, 6 * m->nodes, &place, &value, &step, MESH(m), 1.0, 0.0, 0.0, 0.0, 0);
    if (number != 0)
        printf("open: refused %" PRIu32 " at %zu\n", number, place);
    return number == 0;
}

static void print_extent(const char *name, const int32_t *at, size_t count)
{
    int32_t least = at[0], greatest = at[0];
    size_t i;
    for (i = 1; i < count; i++) {
        least = at[i] < least ? at[i] : least;
        greatest = at[i] > greatest ? at[i] : greatest;
    }
    printf("%s from %" PRId32 " to %" PRId32 " m\n", name, least, greatest);
}

/* Depths are thousandths, so three decimals are all there is. */
static void print_depths(const double *h, size_t count)
{
    double least = h[0], greatest = h[0];
    size_t i;
    for (i = 1; i < count; i++) {
        least = h[i] < least ? h[i] : least;
        greatest = h[i] > greatest ? h[i] : greatest;
    }
    printf("depth from %.3f to %.3f m\n", least, greatest);
}

static size_t kinds_of(const struct mesh *m, uint8_t kind)
{
    size_t count = 0, i;
    for (i = 0; i < m->kinds; i++)
        count += m->kind[i] == kind;
    return count;
}

/* An opened mesh has three nodes at least. */
static void print_mesh(const struct mesh *m)
{
    printf("nodes %zu, triangles %zu\n", m->nodes, m->triangles);
    print_extent("x", m->x, m->nodes);
    print_extent("y", m->y, m->nodes);
    print_depths(m->h, m->nodes);
    printf("open nodes %zu, held nodes %zu\n", kinds_of(m, 1), kinds_of(m, 2));
}

static int run(struct mesh *m, const struct text *grid, const struct text *kinds)
{
    if (!mesh_read(m, grid))
        return 1;
    if (kinds == NULL)
        m->kinds = m->nodes;
    else if (!mesh_kinds(m, kinds))
        return 2;
    if (!mesh_open(m))
        return 1;
    print_mesh(m);
    return 0;
}

int main(int count, char **words)
{
    static struct mesh m; /* every kind is 0, free */
    struct text grid = {NULL, 0, 0}, kinds = {NULL, 0, 0};
    int status = 2;
    if (count < 2 || count > 3)
        fprintf(stderr, "%s: GRID [KINDS]\n", program);
    else if (text_read(&grid, words[1]) && (count == 2 || text_read(&kinds, words[2])))
        status = run(&m, &grid, count == 2 ? NULL : &kinds);
    free(grid.at);
    free(kinds.at);
    return fflush(stdout) == 0 ? status : 2;
}
