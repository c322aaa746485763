/*
 * The harbour masters' board: `board GRID KINDS LOG` puts up gauges by include/gauges.h, steps the harbour through a forcing log by
 * include/surge.h, hands over each state, and prints the gauges' elevations and their peaks. It works out no elevation and no peak itself.
 * Built and run from the repository's root:
 *
 *     rt staticlib capi
 *     rt staticlib gauges
 *     tools/x86 cc target/board examples/board/board.c examples/board/bytes.c examples/entrance/run.c examples/grids/mesh.c \
 *         target/staticlib/libcapi.a target/staticlib/libgauges.a
 *     tools/x86 run target/board examples/grids/harbour.grd examples/grids/harbour.kinds examples/entrance/surge.log
 *
 * It prints what `stdout` beside it holds. Exit status: 0 at the end, 1 where something was refused that should not be, 2 where a file cannot be
 * read.
 */
#include "../entrance/run.h"
#include "bytes.h"
#include "gauges.h"

#include <inttypes.h>
#include <stdio.h>
#include <stdlib.h>

const char program[] = "board";

/* Elevations are printed for every so many steps, and one of these states is saved. */
enum { EVERY = 40, SAVED_AT = 80 };

struct spot {
    const char *name;
    int32_t x, y;
};

/* In metres from the middle of the entrance. The light stands on the island, where there is no water. */
static const struct spot spots[] = {
    {"open sea", 0, -200}, {"entrance", 0, 0}, {"island light", 60, 220}, {"east basin", 180, 260}, {"quay", -30, 370},
};
static const struct spot dredger = {"dredger", -100, 180};

enum { SPOTS = sizeof spots / sizeof spots[0] };

/* The run, and what the gauges' calls take: the mesh and its present state as bytes, and the record. A gauge's name is the board's own. */
struct board {
    const struct run *run;
    const struct mesh *mesh;
    uint8_t x[4 * NODES], y[4 * NODES], tri[6 * TRIANGLES], h[8 * NODES], state[48 * NODES];
    uint8_t record[GAUGE_RECORD_BYTES];
    const char *names[GAUGE_MOST];
    uint32_t gauges;
};

/* Kinds are bytes already. The parameters are the run's. */
#define MESH_BYTES(m, b) (b)->x, 4 * (m)->nodes, (b)->y, 4 * (m)->nodes, (b)->tri, 6 * (m)->triangles, (b)->h, 8 * (m)->nodes, (m)->kind, (m)->kinds
#define PACKED(b) (b)->state, 48 * (b)->mesh->nodes, MESH_BYTES((b)->mesh, b), DT, TAU, K, F

/* ---- refusals */

static const char *reason(uint32_t number)
{
    switch (number) {
    case 40:
        return "no triangle contains the point";
    case 41:
        return "the record has all its gauges";
    case 42:
        return "no gauge has this number";
    case 43:
        return "these bytes are no record";
    }
    return "include/surge.h has this row";
}

static int refused(const char *call, const char *of, uint32_t number, size_t place)
{
    if (number != 0)
        printf("%s, %s: refused %" PRIu32 " at %zu: %s\n", call, of, number, place, reason(number));
    return number != 0;
}

/* ---- the calls */

/* A mesh does not change: its bytes are made once. */
static void pack_mesh(struct board *b)
{
    const struct mesh *m = b->mesh;
    bytes_of_i32(b->x, m->x, m->nodes);
    bytes_of_i32(b->y, m->y, m->nodes);
    bytes_of_u16(b->tri, m->tri, 3 * m->triangles);
    bytes_of_f64(b->h, m->h, m->nodes);
}

/* The bytes of the present state, after an opening, a step or a load. */
static void pack_state(struct board *b)
{
    bytes_of_f64(b->state, b->run->state, 6 * b->mesh->nodes);
}

static int add(struct board *b, uint8_t *record, const struct spot *at, uint32_t *gauge)
{
    size_t place;
    double value;
    uint32_t number = gauge_add(record, GAUGE_RECORD_BYTES, gauge, &place, &value, PACKED(b), at->x, at->y);
    return !refused("gauge_add", at->name, number, place);
}

static int locate(const struct board *b, const struct spot *at, uint32_t *triangle)
{
    size_t place;
    double value;
    uint32_t number = gauge_locate(triangle, &place, &value, PACKED(b), at->x, at->y);
    return !refused("gauge_locate", at->name, number, place);
}

static int hand_over(struct board *b)
{
    size_t place;
    double value;
    uint32_t number = gauge_update(b->record, sizeof b->record, &place, &value, PACKED(b), b->run->step);
    return !refused("gauge_update", number == 40 ? b->names[place] : "the state", number, place);
}

/* ---- what is printed */

/* Puts up a gauge. Triangles by the grid file's numbers, which count from 1. A spot that is refused has no gauge, and the board goes on. */
static int put_up(struct board *b, const struct spot *at)
{
    uint32_t gauge, triangle;
    if (!add(b, b->record, at, &gauge))
        return 0;
    b->names[gauge] = at->name;
    b->gauges++;
    if (locate(b, at, &triangle))
        printf("gauge %" PRIu32 ", %s (x %" PRId32 ", y %" PRId32 " m): in triangle %" PRIu32 "\n", gauge, at->name, at->x, at->y, triangle + 1);
    return 1;
}

static void print_heading(const struct board *b)
{
    uint32_t gauge;
    fputs("time (s)", stdout);
    for (gauge = 0; gauge < b->gauges; gauge++)
        printf("%12s", b->names[gauge]);
    putchar('\n');
}

static int print_elevations(const struct board *b)
{
    uint32_t gauge;
    printf("%8.0f", b->run->step * DT);
    for (gauge = 0; gauge < b->gauges; gauge++) {
        size_t place;
        double elevation, value;
        uint32_t number = gauge_elevation(&elevation, &place, &value, b->record, sizeof b->record, PACKED(b), gauge);
        if (refused("gauge_elevation", b->names[gauge], number, place))
            return 0;
        printf("%12.3f", shown(elevation));
    }
    putchar('\n');
    return 1;
}

/* A gauge that has seen no state has a peak of +0, which is none: it is `seen` that says so. */
static int print_peak(const struct board *b, uint32_t gauge)
{
    uint8_t seen;
    uint32_t step;
    size_t place;
    double peak, value;
    uint32_t number = gauge_peak(&seen, &peak, &step, &place, &value, b->record, sizeof b->record, gauge);
    if (refused("gauge_peak", b->names[gauge], number, place))
        return 0;
    if (seen)
        printf("%-12s%9.3f%6" PRIu32 "%9.0f\n", b->names[gauge], shown(peak), step, step * DT);
    else
        printf("%-12s no state seen yet\n", b->names[gauge]);
    return 1;
}

static int print_peaks(const struct board *b)
{
    uint32_t gauge;
    puts("gauge        peak (m)  step time (s)");
    for (gauge = 0; gauge < b->gauges; gauge++)
        if (!print_peak(b, gauge))
            return 0;
    return 1;
}

/* ---- the night */

/* Every state is handed over: what is not handed over no gauge sees. */
static int step_through(struct board *b, struct run *r, const struct text *text, struct saved *saved)
{
    static double forcing[1 + 2 * NODES];
    struct log log = {text, 0, 0, 0};
    print_heading(b);
    while (log.at < text->length) {
        if (!forcing_next(forcing, &log, b->mesh->nodes) || !run_step(r, forcing))
            return 0;
        pack_state(b);
        if (!hand_over(b))
            return 0;
        if (r->step % EVERY == 0 && !print_elevations(b))
            return 0;
        if (r->step == SAVED_AT && !run_save(r, saved))
            return 0;
    }
    return 1;
}

/* The run goes back, and the record does not. A gauge that is put up now sees the state that was loaded first. */
static int go_back(struct board *b, struct run *r, const struct saved *saved)
{
    if (!run_load(r, saved))
        return 0;
    pack_state(b);
    printf("\nThe save of step %" PRIu32 " is loaded, and the peaks stay:\n", r->step);
    if (!put_up(b, &dredger))
        return 0;
    print_heading(b);
    if (!print_elevations(b) || !print_peaks(b))
        return 0;
    puts("That state is handed over again:");
    return hand_over(b) && print_peaks(b);
}

/* One gauge too many, in a record of its own; a gauge that nobody put up; a record that has lost its last byte. */
static void show_refusals(struct board *b)
{
    static uint8_t record[GAUGE_RECORD_BYTES];
    uint8_t seen;
    uint32_t step, gauge, number, i;
    size_t place;
    double peak, value;
    puts("\nThe other refusals of gauges:");
    for (i = 0; i <= GAUGE_MOST; i++)
        add(b, record, &spots[0], &gauge);
    number = gauge_peak(&seen, &peak, &step, &place, &value, b->record, sizeof b->record, b->gauges);
    refused("gauge_peak", "one gauge further", number, place);
    number = gauge_peak(&seen, &peak, &step, &place, &value, b->record, sizeof b->record - 1, 0);
    refused("gauge_peak", "one byte less", number, place);
}

/* GRID KINDS LOG, read. */
static int watch(struct mesh *m, const struct text *read)
{
    static struct run run;
    static struct board board; /* its record is fresh: all zero */
    static struct saved saved;
    size_t i;
    if (!mesh_read(m, &read[0]))
        return 1;
    if (!mesh_kinds(m, &read[1]))
        return 2;
    if (!run_open(&run, m, 1))
        return 1;
    board.run = &run;
    board.mesh = m;
    pack_mesh(&board);
    pack_state(&board);
    for (i = 0; i < SPOTS; i++)
        put_up(&board, &spots[i]);
    if (!step_through(&board, &run, &read[2], &saved) || !print_peaks(&board) || !go_back(&board, &run, &saved))
        return 1;
    show_refusals(&board);
    return 0;
}

int main(int count, char **words)
{
    static struct mesh m;
    struct text read[3] = {{NULL, 0, 0}, {NULL, 0, 0}, {NULL, 0, 0}};
    int status = 2, i;
    if (count != 4)
        fprintf(stderr, "%s: GRID KINDS LOG\n", program);
    else if (text_read(&read[0], words[1]) && text_read(&read[1], words[2]) && text_read(&read[2], words[3]))
        status = watch(&m, read);
    for (i = 0; i < 3; i++)
        free(read[i].at);
    return fflush(stdout) == 0 ? status : 2;
}
