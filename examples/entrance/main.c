/*
 * What advection changes in a narrow entrance: `main GRID KINDS LOG OFF ON` opens a mesh twice, with the advective terms off and on, steps both
 * runs through the one forcing log, prints the velocity at the entrance in each, and saves them to the files OFF and ON.
 * Built and run from the repository's root:
 *
 *     rt staticlib capi
 *     tools/x86 cc target/entrance examples/entrance/main.c examples/entrance/run.c examples/grids/mesh.c target/staticlib/libcapi.a
 *     tools/x86 run target/entrance examples/grids/harbour.grd examples/grids/harbour.kinds examples/entrance/surge.log target/off target/on
 *
 * It prints what `stdout` beside it begins with. surge.log has lines of kind 10 alone, as logs had before #105: each gives every node the same
 * wind, here none. Forcings of kinds 14 and 15, with a wind for each node, may stand among them. What a call refuses is printed and explained in
 * docs/REFUSALS.md. Exit status: 0 where both runs were saved, 1 where something was refused, 2 where a file cannot be read or written.
 */
#include "run.h"

#include <inttypes.h>
#include <stdio.h>
#include <stdlib.h>

const char program[] = "entrance";

/* A line is printed for every so many steps. */
enum { EVERY = 20 };

static int file_write(const char *name, const uint8_t *text, size_t length)
{
    FILE *out = fopen(name, "wb");
    int done = out != NULL && fwrite(text, 1, length, out) == length;
    if (out != NULL && fclose(out) != 0)
        done = 0;
    if (!done)
        fprintf(stderr, "%s: %s cannot be written\n", program, name);
    return done;
}

/* The exit status: a refusal is 1, and a file that cannot be written 2. */
static int save_to(const struct run *r, const char *name)
{
    static struct saved saved;
    if (!run_save(r, &saved))
        return 1;
    return file_write(name, saved.text, saved.length) ? 0 : 2;
}

/* U and V of a node: the third and fourth run of the state. */
static double u_of(const struct run *r, size_t i)
{
    return r->state[2 * r->mesh->nodes + i];
}

static double v_of(const struct run *r, size_t i)
{
    return r->state[3 * r->mesh->nodes + i];
}

/* The chart's metres count from the middle of the entrance: it is the node nearest to 0, 0. */
static size_t entrance_of(const struct mesh *m)
{
    size_t nearest = 0, i;
    double least = 0.0;
    for (i = 0; i < m->nodes; i++) {
        double x = m->x[i], y = m->y[i], square = x * x + y * y;
        if (i == 0 || square < least) {
            nearest = i;
            least = square;
        }
    }
    return nearest;
}

/* The node whose velocity differs most between the two runs. */
static size_t most_changed(const struct run *off, const struct run *on)
{
    size_t most = 0, i;
    double greatest = 0.0;
    for (i = 0; i < on->mesh->nodes; i++) {
        double du = u_of(on, i) - u_of(off, i), dv = v_of(on, i) - v_of(off, i), square = du * du + dv * dv;
        if (square > greatest) {
            most = i;
            greatest = square;
        }
    }
    return most;
}

/* The difference is rounded by itself, so its last decimal can be one beside that of the two rounded numbers. */
static void print_pair(double off, double on)
{
    printf("%9.3f%9.3f%9.3f", shown(off), shown(on), shown(on - off));
}

static void print_row(const struct run *off, const struct run *on, size_t node, double sea)
{
    printf("%8.0f%9.3f", on->step * DT, shown(sea));
    print_pair(u_of(off, node), u_of(on, node));
    print_pair(v_of(off, node), v_of(on, node));
    putchar('\n');
}

/* Nodes by the grid file's numbers, which count from 1. */
static void print_node(const struct mesh *m, size_t node)
{
    printf("node %zu (x %" PRId32 ", y %" PRId32 " m)", node + 1, m->x[node], m->y[node]);
}

static void print_heading(const struct mesh *m, size_t node)
{
    fputs("The entrance, ", stdout);
    print_node(m, node);
    fputs(", advection off and on: U to the east, V to the north, m/s\n", stdout);
    puts("time (s)  sea (m)    U off     U on   on-off    V off     V on   on-off");
}

static void print_end(const struct run *off, const struct run *on)
{
    size_t node = most_changed(off, on);
    fputs("The end differs most at ", stdout);
    print_node(on->mesh, node);
    printf(": U %.3f off, %.3f on; V %.3f off, %.3f on\n", shown(u_of(off, node)), shown(u_of(on, node)), shown(v_of(off, node)), shown(v_of(on, node)));
}

/* Each forcing is read once, and both runs take it. Its first number is the elevation of the sea. */
static int step_through(struct run *off, struct run *on, const struct text *text)
{
    static double forcing[1 + 2 * NODES];
    struct log log = {text, 0, 0, 0};
    size_t node = entrance_of(on->mesh);
    print_heading(on->mesh, node);
    while (log.at < text->length) {
        if (!forcing_next(forcing, &log, on->mesh->nodes) || !run_step(off, forcing) || !run_step(on, forcing))
            return 0;
        if (on->step % EVERY == 0)
            print_row(off, on, node, forcing[0]);
    }
    print_end(off, on);
    return 1;
}

/* GRID KINDS LOG, read, and OFF and ON by name. */
static int compare(struct mesh *m, const struct text *read, char **names)
{
    static struct run off, on;
    int status;
    if (!mesh_read(m, &read[0]))
        return 1;
    if (!mesh_kinds(m, &read[1]))
        return 2;
    if (!run_open(&off, m, 0) || !run_open(&on, m, 1) || !step_through(&off, &on, &read[2]))
        return 1;
    status = save_to(&off, names[0]);
    return status != 0 ? status : save_to(&on, names[1]);
}

int main(int count, char **words)
{
    static struct mesh m;
    struct text read[3] = {{NULL, 0, 0}, {NULL, 0, 0}, {NULL, 0, 0}};
    int status = 2, i;
    if (count != 6)
        fprintf(stderr, "%s: GRID KINDS LOG OFF ON\n", program);
    else if (text_read(&read[0], words[1]) && text_read(&read[1], words[2]) && text_read(&read[2], words[3]))
        status = compare(&m, read, words + 4);
    for (i = 0; i < 3; i++)
        free(read[i].at);
    return fflush(stdout) == 0 ? status : 2;
}
