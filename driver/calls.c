#include "calls.h"

#include "gauges.h"
#include "surge.h"

#include <inttypes.h>

/* Each slice of the script as the two arguments that a call takes for it. */
#define LENT(s, name) (s)->slices[name].at, (s)->slices[name].count
#define MESH(s) LENT(s, X), LENT(s, Y), LENT(s, TRI), LENT(s, H), LENT(s, KIND)
#define PARAMETERS(s) (s)->dt, (s)->tau, (s)->k, (s)->f, (s)->advection
#define CLOCK(s) &(s)->step

/* The same as the gauges' calls take it: a state and a mesh of bytes, and the parameters without advection. */
#define BYTES(s) LENT(s, STATEBYTES), LENT(s, XBYTES), LENT(s, YBYTES), LENT(s, TRIBYTES), LENT(s, HBYTES), LENT(s, KINDBYTES)
#define GAUGED(s) BYTES(s), (s)->dt, (s)->tau, (s)->k, (s)->f

int script_begin(struct script *s, FILE *out)
{
    static const struct {
        const char *name;
        enum form form;
    } table[SLICES] = {
        [X] = {"x", SIGNED_32},
        [Y] = {"y", SIGNED_32},
        [TRI] = {"tri", UNSIGNED_16},
        [H] = {"h", FLOAT},
        [KIND] = {"kind", UNSIGNED_8},
        [STATE] = {"state", FLOAT},
        [NEXT] = {"next", FLOAT},
        [WORK] = {"work", FLOAT},
        [SUMS] = {"sums", UNSIGNED_64},
        [FORCING] = {"forcing", FLOAT},
        [FORCINGS] = {"forcings", FLOAT},
        [TEXT] = {"text", BYTE},
        [LINES] = {"lines", BYTE},
        [RECORD] = {"record", BYTE},
        [XBYTES] = {"xbytes", BYTE},
        [YBYTES] = {"ybytes", BYTE},
        [TRIBYTES] = {"tribytes", BYTE},
        [HBYTES] = {"hbytes", BYTE},
        [KINDBYTES] = {"kindbytes", BYTE},
        [STATEBYTES] = {"statebytes", BYTE},
    };
    int fine = 1;
    int i;
    for (i = 0; i < SLICES; i++)
        fine = slice_begin(&s->slices[i], table[i].name, table[i].form) && fine;
    s->dt = s->tau = s->k = s->f = 0.0;
    s->advection = 0;
    s->step = 0;
    s->out = out;
    return fine;
}

void script_end(struct script *s)
{
    int i;
    for (i = 0; i < SLICES; i++)
        slice_end(&s->slices[i]);
}

static void print_answer(FILE *out, const char *call, uint32_t number, size_t place, double value)
{
    fprintf(out, "%s %" PRIu32 " %zu %016" PRIX64 "\n", call, number, place, pattern_of_made(value));
}

static void print_clock(const struct script *s)
{
    fprintf(s->out, "clock %" PRIu32 "\n", s->step);
}

void call_open(struct script *s)
{
    size_t place;
    double value;
    uint32_t number = surge_open(LENT(s, STATE), &place, &value, CLOCK(s), MESH(s), PARAMETERS(s));
    print_answer(s->out, "open", number, place, value);
    print_clock(s);
}

void call_step(struct script *s)
{
    size_t place;
    double value;
    uint32_t number = surge_step(LENT(s, NEXT), LENT(s, WORK), LENT(s, SUMS), &place, &value, CLOCK(s), LENT(s, STATE), LENT(s, FORCING),
                                 MESH(s), PARAMETERS(s));
    print_answer(s->out, "step", number, place, value);
    print_clock(s);
}

void call_step_all(struct script *s)
{
    uint32_t accepted;
    size_t place;
    double value;
    uint32_t number = surge_step_all(LENT(s, NEXT), LENT(s, WORK), LENT(s, SUMS), &place, &value, CLOCK(s), &accepted, LENT(s, STATE),
                                     LENT(s, FORCINGS), MESH(s), PARAMETERS(s));
    print_answer(s->out, "stepall", number, place, value);
    print_clock(s);
    fprintf(s->out, "accepted %" PRIu32 "\n", accepted);
}

void call_save(struct script *s)
{
    size_t place;
    double value;
    uint32_t number = surge_save(LENT(s, TEXT), &place, &value, LENT(s, STATE), MESH(s), PARAMETERS(s), s->step);
    print_answer(s->out, "save", number, place, value);
}

void call_load(struct script *s)
{
    size_t place;
    double value;
    uint32_t number = surge_load(LENT(s, STATE), &place, &value, CLOCK(s), LENT(s, TEXT), MESH(s), PARAMETERS(s));
    print_answer(s->out, "load", number, place, value);
    print_clock(s);
}

void call_read(struct script *s, uint32_t expected)
{
    size_t place;
    double value;
    uint32_t number = surge_read_forcing(LENT(s, FORCING), &place, &value, LENT(s, LINES), expected);
    if (number == 0)
        slice_one_nan(&s->slices[FORCING]);
    print_answer(s->out, "read", number, place, value);
}

void call_grid(struct script *s)
{
    size_t place;
    double value;
    uint32_t number = surge_read_grid(LENT(s, X), LENT(s, Y), LENT(s, H), LENT(s, TRI), &place, &value, LENT(s, TEXT));
    print_answer(s->out, "grid", number, place, value);
}

/* A number that a gauge's call finds: a triangle or a gauge. */
static void print_found(FILE *out, uint32_t found)
{
    fprintf(out, "found %" PRIu32 "\n", found);
}

void call_gauge_locate(struct script *s, int32_t px, int32_t py)
{
    uint32_t triangle;
    size_t place;
    double value;
    uint32_t number = gauge_locate(&triangle, &place, &value, GAUGED(s), px, py);
    print_answer(s->out, "gauge locate", number, place, value);
    print_found(s->out, triangle);
}

void call_gauge_add(struct script *s, int32_t px, int32_t py)
{
    uint32_t gauge;
    size_t place;
    double value;
    uint32_t number = gauge_add(LENT(s, RECORD), &gauge, &place, &value, GAUGED(s), px, py);
    print_answer(s->out, "gauge add", number, place, value);
    print_found(s->out, gauge);
}

void call_gauge_elevation(struct script *s, uint32_t gauge)
{
    double elevation;
    size_t place;
    double value;
    uint32_t number = gauge_elevation(&elevation, &place, &value, LENT(s, RECORD), GAUGED(s), gauge);
    print_answer(s->out, "gauge elevation", number, place, value);
    fprintf(s->out, "found %016" PRIX64 "\n", pattern_of_made(elevation));
}

void call_gauge_update(struct script *s)
{
    size_t place;
    double value;
    uint32_t number = gauge_update(LENT(s, RECORD), &place, &value, GAUGED(s), s->step);
    print_answer(s->out, "gauge update", number, place, value);
}

void call_gauge_peak(struct script *s, uint32_t gauge)
{
    uint8_t seen;
    double peak;
    uint32_t step;
    size_t place;
    double value;
    uint32_t number = gauge_peak(&seen, &peak, &step, &place, &value, LENT(s, RECORD), gauge);
    print_answer(s->out, "gauge peak", number, place, value);
    fprintf(s->out, "found %" PRIu8 " %016" PRIX64 " %" PRIu32 "\n", seen, pattern_of_made(peak), step);
}
