/* What a script holds, and the calls that it makes. */
#ifndef CALLS_H
#define CALLS_H

#include "slices.h"

#include <stdint.h>
#include <stdio.h>

enum slice_name {
    X, Y, TRI, H, KIND, STATE, NEXT, WORK, SUMS, FORCING, FORCINGS, TEXT, LINES,
    RECORD, XBYTES, YBYTES, TRIBYTES, HBYTES, KINDBYTES, STATEBYTES,
    SLICES
};

struct script {
    struct slice slices[SLICES];
    /* the parameters */
    double dt, tau, k, f;
    uint8_t advection;
    /* the clock */
    uint32_t step;
    FILE *out;
};

/* Everything empty and zero: 0 where there is no memory for it. `script_end` is called either way. */
int script_begin(struct script *s, FILE *out);
void script_end(struct script *s);

/* Each makes its call and prints what comes back. */
void call_open(struct script *s);
void call_step(struct script *s);
void call_step_all(struct script *s);
void call_save(struct script *s);
void call_load(struct script *s);
void call_read(struct script *s, uint32_t expected);
void call_grid(struct script *s);
void call_gauge_locate(struct script *s, int32_t px, int32_t py);
void call_gauge_add(struct script *s, int32_t px, int32_t py);
void call_gauge_elevation(struct script *s, uint32_t gauge);
void call_gauge_update(struct script *s);
void call_gauge_peak(struct script *s, uint32_t gauge);

#endif
