/*
 * The calls of include/surge.h from a C program: mesh T of document 01 is opened, steps once under a wind of 1/64 at its first node and none at
 * the others, and its save is printed.
 * Built and run from the repository's root:
 *
 *     rt staticlib capi
 *     tools/x86 cc target/link examples/link/main.c target/staticlib/libcapi.a
 *     tools/x86 run target/link
 *
 * It prints what `stdout` beside it holds.
 */
#include "surge.h"

#include <inttypes.h>
#include <stdio.h>

enum { N = 3, E = 1, STATE = 6 * N, FORCING = 1 + 2 * N, TEXT = 127 + 105 * N };

/* A run is what its owner holds: the library keeps nothing. */
struct run {
    int32_t x[N], y[N];
    uint16_t tri[3 * E];
    double h[N];
    uint8_t kind[N];
    double dt, tau, k, f;
    uint8_t advection;
    double state[STATE], next[STATE];
    double work[5 * N];
    uint64_t sums[N];
    uint32_t step;
};

/* The mesh as each call takes it. */
#define MESH(r) (r)->x, N, (r)->y, N, (r)->tri, 3 * E, (r)->h, N, (r)->kind, N, (r)->dt, (r)->tau, (r)->k, (r)->f, (r)->advection

static int refused(const char *call, uint32_t number, size_t place, double value)
{
    if (number != 0)
        printf("%s: refused %" PRIu32 " at %zu, value %g\n", call, number, place, value);
    return number != 0;
}

static int open_run(struct run *r)
{
    size_t place;
    double value;
    uint32_t number = surge_open(r->state, STATE, &place, &value, &r->step, MESH(r));
    return !refused("open", number, place, value);
}

/* One step from `state` to `next`. */
static int step_run(struct run *r, const double *forcing)
{
    size_t place;
    double value;
    uint32_t number = surge_step(r->next, STATE, r->work, 5 * N, r->sums, N, &place, &value, &r->step, r->state, STATE, forcing, FORCING, MESH(r));
    return !refused("step", number, place, value);
}

/* The save of the state that the step gave. The text has no zero byte at its end: the place says how long it is. */
static int print_save(const struct run *r)
{
    uint8_t text[TEXT];
    size_t place;
    double value;
    uint32_t number = surge_save(text, TEXT, &place, &value, r->next, STATE, MESH(r), r->step);
    if (refused("save", number, place, value))
        return 0;
    return fwrite(text, 1, place, stdout) == place;
}

int main(void)
{
    struct run r = {
        .x = {0, 100, 0}, .y = {0, 0, 100}, .tri = {0, 1, 2}, .h = {8.0, 8.0, 8.0}, .dt = 1.0,
    };
    /* the elevation at open nodes, of which T has none; then Wx' of each node, and Wy' of each node */
    const double forcing[FORCING] = {0.0, 1.0 / 64, 0.0, 0.0, 0.0, 0.0, 0.0};
    return open_run(&r) && step_run(&r, forcing) && print_save(&r) ? 0 : 1;
}
