#include "run.h"

#include "surge.h"

#include <inttypes.h>
#include <stdio.h>
#include <string.h>

const double DT = 2.0, TAU = 0.01, K = 0.0025, F = 0.0001;

/* The mesh and the parameters as each call takes them. */
#define RUN(r) MESH((r)->mesh), DT, TAU, K, F, (r)->advection

static int refused(const struct run *r, const char *call, uint32_t number, size_t place, double value)
{
    if (number != 0)
        printf("%s at step %" PRIu32 ", advection %s: refused %" PRIu32 " at %zu, value %g\n", call, r->step, r->advection ? "on" : "off", number, place, value);
    return number != 0;
}

int run_open(struct run *r, const struct mesh *m, uint8_t advection)
{
    size_t place;
    double value;
    uint32_t number;
    r->mesh = m;
    r->advection = advection;
    r->state = r->rooms[0];
    r->next = r->rooms[1];
    number = surge_open(r->state, 6 * m->nodes, &place, &value, &r->step, RUN(r));
    return !refused(r, "surge_open", number, place, value);
}

int run_step(struct run *r, const double *forcing)
{
    size_t n = r->mesh->nodes, place;
    double value, *before = r->state;
    uint32_t number = surge_step(r->next, 6 * n, r->work, 5 * n, r->sums, n, &place, &value, &r->step, r->state, 6 * n, forcing, 1 + 2 * n, RUN(r));
    if (refused(r, "surge_step", number, place, value))
        return 0;
    r->state = r->next;
    r->next = before;
    return 1;
}

int run_save(const struct run *r, struct saved *to)
{
    double value;
    uint32_t number = surge_save(to->text, sizeof to->text, &to->length, &value, r->state, 6 * r->mesh->nodes, RUN(r), r->step);
    return !refused(r, "surge_save", number, to->length, value);
}

int run_load(struct run *r, const struct saved *from)
{
    size_t place;
    double value;
    uint32_t number = surge_load(r->state, 6 * r->mesh->nodes, &place, &value, &r->step, from->text, from->length, RUN(r));
    return !refused(r, "surge_load", number, place, value);
}

/* The lines of the next forcing: one of kind 10, or one of kind 14 and one of kind 15 for each node. */
static size_t lines_due(const struct log *log, size_t nodes)
{
    const uint8_t *kind = log->text->at + log->at;
    return log->text->length - log->at >= 2 && memcmp(kind, "10", 2) == 0 ? 1 : nodes + 1;
}

/* The bytes of so many lines, or of all that are left. Lines of any length are taken: the call knows what a line has. */
static size_t lines_length(const struct log *log, size_t lines)
{
    const uint8_t *from = log->text->at + log->at, *end = log->text->at + log->text->length, *to = from;
    for (; lines > 0 && to < end; lines--) {
        const uint8_t *feed = memchr(to, '\n', (size_t)(end - to));
        to = feed == NULL ? end : feed + 1;
    }
    return (size_t)(to - from);
}

int forcing_next(double *forcing, struct log *log, size_t nodes)
{
    size_t lines = lines_due(log, nodes), length = lines_length(log, lines), place;
    double value;
    uint32_t number = surge_read_forcing(forcing, 1 + 2 * nodes, &place, &value, log->text->at + log->at, length, log->sequence);
    if (number != 0)
        printf("log line %zu: refused %" PRIu32 "\n", log->line + place, number);
    log->at += length;
    log->line += lines;
    log->sequence++;
    return number == 0;
}

double shown(double value)
{
    return value > -0.0005 && value < 0.0005 ? 0.0 : value;
}
