/*
 * The storm-surge run of document 01, for C.
 *
 * Seven calls: surge_open, surge_step, surge_step_all of document 02's #107, surge_save, surge_load, surge_read_forcing, and
 * surge_read_grid of #101. They are the product's calls of the same names, exported from the proved crate `capi`; `rt staticlib
 * capi` makes the archive target/staticlib/libcapi.a.
 *
 * Memory. Everything that a call reads or writes is the caller's, lent for the time of the call. A call keeps no pointer,
 * allocates nothing, and holds nothing from one call to the next: a run is what the caller holds. There is no global state.
 *
 * Slices. A slice is two arguments, a pointer to its first element and the number of its elements. Any number may be passed:
 * a slice of numbers that has not the length named below is refused with 1 (a list that is too long with 14, a room for a
 * grid with 33), a text as its call says, and only elements that are there are read or written. The pointer is aligned for
 * its type and never NULL, even where the number is 0, since the callee may take that for granted.
 *
 * Overlap. Memory that a call may write (arguments that are not `const`) overlaps no other argument. Arguments that are only
 * read may overlap each other.
 *
 * Any contents may be lent: NaN, infinities, any bytes. A NaN is outside every range. After a refusal slices, rooms and clock
 * are left as found, but for the work room after a 13; a list call that has accepted a step says below what it leaves. The
 * proofs know one NaN: where what was lent held a NaN, that the same one, sign and payload, is still there is tested and not
 * proved. Which NaN comes back as the value of a 13, or in a forcing room of a text that holds one, means nothing.
 *
 * Answers. The result is the number of the refusal table of document 01, 14, 25 and from 30 on of document 02, and 0 where the
 * call was accepted. Every call, refused or not, writes `*place` and `*value`: which triangle, node, parameter or line was
 * refused, and the offending value, which is +0 except after a 13.
 *
 *      1  the triangle list is no multiple of 3, or a slice has another length
 *      2  N not 3..4,096 or E not 1..8,192
 *      3  a node number is N or more                            place: triangle
 *      4  a side beyond 100,000 m in x or y                     place: triangle
 *      5  twice the area is 0 or less                           place: triangle
 *      6  a directed leg seen in an earlier triangle            place: the later triangle
 *      7  a node in no triangle                                 place: node
 *      8  a depth not 1..12,000, or a kind above 2              place: node
 *      9  dt not 0.125..60, tau not 0..1, k not 0..1,
 *         f not -0.001..0.001                                   place: 0..3
 *     10  an elevation beyond 30, depth and present elevation
 *         below 0.1, U or V beyond 20, or Wx or Wy beyond 0.1   place: node
 *     11  the step number is 4,294,967,295
 *     12  the forcing's elevation beyond 30; its Wx' or Wy' of
 *         node i beyond 0.1                                     place: 1; 2+i
 *     13  a new elevation beyond 30, depth and new elevation
 *         below 0.1, or a new U or V beyond 20                  place: node; value: z', H', U' or V'
 *     14  the list is above 4,096 forcings of 1+2N numbers
 *     20  a line of wrong length, a wrong digit, no line feed,
 *         bytes after the end                                   place: line
 *     21  the check byte                                        place: line
 *     22  the kind or the sequence                              place: line
 *     23  N or E differs                                        place: line
 *     24  the text room is below 127+105N                       place: 127+105N
 *     25  dt, tau, K, f or the sum of all D differs in a bit    place: line
 *     30  a field of a grid file malformed, missing or too
 *         many, or a line missing                               place: line
 *     31  a node or triangle number out of order                place: line
 *     32  x or y beyond 32 bits, a depth with more than three
 *         decimals or nine whole digits, or a corner not
 *         1..65,536                                             place: line
 *     33  a room has not the length that N and E of the grid
 *         file give                                             place: line
 */
#ifndef SURGE_H
#define SURGE_H

#include <stddef.h>
#include <stdint.h>

#ifdef __cplusplus
extern "C" {
#endif

/*
 * The arguments that the calls on a run share.
 *
 *   state         6N floats in six runs of N: earlier elevation, present elevation, U, V, and the present wind Wx, Wy (stress over density)
 *   x, y          N whole metres; N is the length of x
 *   tri           3E node numbers from 0, three for each triangle, counter-clockwise
 *   h             N depths
 *   kind          N kinds: 0 free, 1 open, 2 held land
 *   dt, tau, k, f the time step, the report's tau-zero, linear bottom friction, Coriolis
 *   advection     the advective terms of document 02's #103: 0 is off, every other value on. No row speaks of it, and a save does not hold it.
 *   step          the clock: the step number
 *   place, value  one number each, written by every call
 */

/*
 * Opens a mesh: rows 1 to 9, in this order; 3, 4 and 5 triangle by triangle.
 *
 *   state         written when accepted: the cold state, all +0. As found after a refusal.
 *   place, value  written
 *   step          one number, written, refused or not: the cold clock, step 0. What it holds before is not read.
 *   the others    read
 */
uint32_t surge_open(
    double *state, size_t state_length,
    size_t *place, double *value,
    uint32_t *step,
    const int32_t *x, size_t x_length,
    const int32_t *y, size_t y_length,
    const uint16_t *tri, size_t tri_length,
    const double *h, size_t h_length,
    const uint8_t *kind, size_t kind_length,
    double dt, double tau, double k, double f, uint8_t advection);

/*
 * Steps once: rows 1 to 5 and 7 to 13, in this order. Row 13 looks at all new elevations first, then, node by node, at U' and V'.
 *
 *   next          6N floats, written when accepted: the next state, in the runs of `state`. As found after a refusal.
 *   work          5N floats of work room, at either setting of advection. All +0 after an accepted step or a 13, as found after any other refusal.
 *   sums          N whole numbers of work room. All 0 after an accepted step or a 13, as found after any other refusal.
 *   place, value  written
 *   step          one number, read and written: the clock goes in, and the advanced clock comes back. A refusal writes what was found.
 *   state         6N floats, read: it stays the present state. The caller goes on from `next`.
 *   forcing       1+2N floats, read: the new elevation at open nodes, then the new wind, Wx' of all nodes and Wy' of all nodes
 *   the others    read
 */
uint32_t surge_step(
    double *next, size_t next_length,
    double *work, size_t work_length,
    uint64_t *sums, size_t sums_length,
    size_t *place, double *value,
    uint32_t *step,
    const double *state, size_t state_length,
    const double *forcing, size_t forcing_length,
    const int32_t *x, size_t x_length,
    const int32_t *y, size_t y_length,
    const uint16_t *tri, size_t tri_length,
    const double *h, size_t h_length,
    const uint8_t *kind, size_t kind_length,
    double dt, double tau, double k, double f, uint8_t advection);

/*
 * Steps through a list of forcings: 14, then rows 1 to 5 and 7 to 10 once, then for each forcing 11, 12 and 13, as surge_step asks them, with the
 * places that it gives. It stops at the first refusal. Result, clock, place and value are those of calls of surge_step made one after another, each
 * from the next state of the one before; `accepted` says how many of these were accepted.
 *
 * An empty list asks 14 and rows 1 to 5 and 7 to 10, and not 11: it is accepted at step 4,294,967,295 too.
 *
 *   next          6N floats, written when a step is accepted, or the list is empty and accepted: the state after the accepted steps, in the runs of
 *                 `state`, and of an empty list the state itself. As found after any refusal before the first accepted step.
 *   work          11N floats of work room, the 5N of surge_step first, at either setting of advection. All +0 once a step has been accepted,
 *                 whatever comes after it. After a 13 of the first forcing the first 5N are +0 and the 6N after them as found. As found after any
 *                 other refusal before the first accepted step, and after an empty list.
 *   sums          N whole numbers of work room. All 0 once a step has been accepted, and after a 13 of the first forcing. Else as found.
 *   place, value  written
 *   step          one number, read and written: the clock goes in, and comes back advanced by the accepted steps. Where there are none, what was
 *                 found is written.
 *   accepted      one number, written by every call: the accepted steps, 0 where there are none. Where the forcing numbered j from 0 is refused, j.
 *   state         6N floats, read: it stays the present state. The caller goes on from `next`, after a refusal too where a step was accepted.
 *   forcings      k(1+2N) floats, read: k forcings as surge_step takes them, one after another, k from 0 to 4,096. A length above 4,096(1+2N) is
 *                 refused with 14, before row 1 and whatever the other slices are; another that is no multiple of 1+2N with 1.
 *   the others    read
 */
uint32_t surge_step_all(
    double *next, size_t next_length,
    double *work, size_t work_length,
    uint64_t *sums, size_t sums_length,
    size_t *place, double *value,
    uint32_t *step,
    uint32_t *accepted,
    const double *state, size_t state_length,
    const double *forcings, size_t forcings_length,
    const int32_t *x, size_t x_length,
    const int32_t *y, size_t y_length,
    const uint16_t *tri, size_t tri_length,
    const double *h, size_t h_length,
    const uint8_t *kind, size_t kind_length,
    double dt, double tau, double k, double f, uint8_t advection);

/*
 * Saves a run, in edition 2: rows 1 to 5, 7 to 10, and 24, in this order.
 *
 *   text          room for at least 127+105N bytes. When accepted its first 127+105N bytes are written, lines that end in a line feed with no
 *                 zero byte after them, and those past them are as found. As found after a refusal.
 *   place         written: the bytes of the save when accepted, and else the place of the refusal
 *   value         written
 *   step          the clock, by value: a save does not change it
 *   the others    read
 */
uint32_t surge_save(
    uint8_t *text, size_t text_length,
    size_t *place, double *value,
    const double *state, size_t state_length,
    const int32_t *x, size_t x_length,
    const int32_t *y, size_t y_length,
    const uint16_t *tri, size_t tri_length,
    const double *h, size_t h_length,
    const uint8_t *kind, size_t kind_length,
    double dt, double tau, double k, double f, uint8_t advection,
    uint32_t step);

/*
 * Loads a run from a save of either edition: a text that starts with 01 is of edition 1, any other of edition 2. In this order: rows 1 to 5
 * and 7 to 9; the lines, from 0, in each 20, 21, 22, 23, 25; bytes after the last line (20, at line N+2 in edition 1, N+3 in edition 2); 10
 * over the loaded values. A missing line is of wrong length (20). An edition 1 text gives every node the wind that its head holds, and has
 * no line on which 25 is asked.
 *
 *   state         6N floats, written when accepted: the saved state. As found after a refusal. What it holds before is not looked at.
 *   place, value  written
 *   step          one number, read and written: the saved step number when accepted, and else what was found
 *   text          the save: exactly the 127+105N bytes that surge_save wrote, without the room past them, or the 70+73N bytes of an
 *                 edition 1 save. Each of its letters A to F may stand in lower case: a save has many readable spellings, all loaded alike.
 *   the others    read
 */
uint32_t surge_load(
    double *state, size_t state_length,
    size_t *place, double *value,
    uint32_t *step,
    const uint8_t *text, size_t text_length,
    const int32_t *x, size_t x_length,
    const int32_t *y, size_t y_length,
    const uint16_t *tri, size_t tri_length,
    const double *h, size_t h_length,
    const uint8_t *kind, size_t kind_length,
    double dt, double tau, double k, double f, uint8_t advection);

/*
 * Reads one forcing: row 1 for the room; then, for a text that starts with 10, one line of kind 10: 20, 21, 22, each at place 0; for any other
 * text N+1 lines, kind 14 with sequence 0 and kind 15 with sequence i+1 for node i: in each 20, 21, 22 with the line as place, then bytes
 * after the last (20, at line N+1). It takes part in no run, and asks no row of the values.
 *
 *   forcing       room for 1+2N floats, which says what N is, 0 among them; an even length is refused with 1. Written when accepted, as surge_step
 *                 takes it: a line of kind 10 gives every node its wind. As found after a refusal.
 *   place, value  written
 *   text          the lines with their line feeds: 57 bytes of kind 10, or 25 of kind 14 and 41 of kind 15 for each node. Each digit may
 *                 be of either case.
 *   expected      the sequence number due in a line of kind 10. Above 65,535 no line has it, so a line that is well formed is then refused with 22.
 *                 Kinds 14 and 15 count within the step, and it is not looked at.
 */
uint32_t surge_read_forcing(
    double *forcing, size_t forcing_length,
    size_t *place, double *value,
    const uint8_t *text, size_t text_length,
    uint32_t expected);

/*
 * Reads a grid file: a title line; a line with E and N; N node lines (number, x, y, depth); E triangle lines (number, 3, three node numbers
 * from 1). What follows is not read. A line ends at a line feed or at the end of the text. Fields are separated by spaces, which may also
 * lead or trail. Numbers are digits, after a minus, if any, in x, y and depth; the depth's point, if any, has digits on both sides.
 *
 * In this order: the lines, from 0, in each 30, then 33 on line 1, and 31 and 32 on those after it. It takes part in no run and opens
 * nothing: surge_open is called afterwards on what was read, with the kinds and the parameters, and rows 1 to 9 then decide.
 *
 *   x, y          room for exactly N whole metres each, N being the text's
 *   h             room for exactly N depths: the text's thousandths divided by 1000, rounded once
 *   tri           room for exactly 3E node numbers. They are written from 0, as the other calls take them.
 *                 The four rooms are written when the whole text is accepted. As found after a refusal.
 *   place, value  written: 0 when accepted and else the line; always +0
 *   text          the bytes of the file, any number of them. No zero byte ends it.
 */
uint32_t surge_read_grid(
    int32_t *x, size_t x_length,
    int32_t *y, size_t y_length,
    double *h, size_t h_length,
    uint16_t *tri, size_t tri_length,
    size_t *place, double *value,
    const uint8_t *text, size_t text_length);

#ifdef __cplusplus
}
#endif

#endif
