/* A run of the harbour by a forcing log, for the example programs that step one. */
#ifndef RUN_H
#define RUN_H

#include "../grids/mesh.h"

/* Steps of two seconds; tau; friction of 0.0025 m/s, a usual bottom under a stream of one m/s; the Coriolis parameter of 43 degrees north. */
extern const double DT, TAU, K, F;

/* A run is what its owner holds. The two rooms take turns: a step reads the state and writes the next one. */
struct run {
    const struct mesh *mesh;
    uint8_t advection;
    double rooms[2][6 * NODES];
    double *state, *next;
    double work[5 * NODES];
    uint64_t sums[NODES];
    uint32_t step;
};

/* The save of a run. There is room for that of the largest mesh. */
struct saved {
    uint8_t text[127 + 105 * NODES];
    size_t length;
};

/* A forcing log, and where in it the next forcing begins: its byte, its line, and the number of forcings before it. */
struct log {
    const struct text *text;
    size_t at, line;
    uint32_t sequence;
};

/* Each makes its call: 0, and the refusal on standard output, where it is refused. */
int run_open(struct run *r, const struct mesh *m, uint8_t advection);
int run_step(struct run *r, const double *forcing);
int run_save(const struct run *r, struct saved *to);
int run_load(struct run *r, const struct saved *from);

/* Reads the next forcing, of 1+2N numbers, and goes on to the one after it. A refusal's place is a line of the forcing: the log's own is printed. */
int forcing_next(double *forcing, struct log *log, size_t nodes);

/* What three decimals show: without this a small negative number would be shown as -0.000. */
double shown(double value);

#endif
