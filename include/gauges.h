/*
 * The gauges of document 02's #106, for C: elevations at points of a mesh, and the highest of each so far.
 *
 * Five calls: gauge_locate, gauge_add, gauge_elevation, gauge_update and gauge_peak, exported from the proved crate `gauges`;
 * `rt staticlib gauges` makes the archive target/staticlib/libgauges.a. A program that steps runs too links it beside
 * target/staticlib/libcapi.a of surge.h.
 *
 * Memory. Everything that a call reads or writes is the caller's, lent for the time of the call. A call keeps no pointer,
 * allocates nothing, and holds nothing from one call to the next: the peaks are in the record that the caller holds, and may keep
 * in a file. There is no global state. A call that is lent a mesh decodes it on the stack, into arrays for the largest mesh there
 * is: it takes some 320 KB of stack, whatever the mesh. gauge_peak takes next to none.
 *
 * Slices. Every slice is bytes, two arguments: a pointer to its first byte and the number of its bytes. A number in it stands with
 * its most significant byte first (big-endian), a float as its binary64 pattern, on every machine. Any number of bytes may be
 * passed: one that is not the length named below is refused with 1 (the record's with 43), and only bytes that are there are read
 * or written. The pointer is never NULL, even where the number is 0, since the callee may take that for granted. It needs no
 * alignment.
 *
 * Overlap. Memory that a call may write (arguments that are not `const`) overlaps no other argument. Arguments that are only
 * read may overlap each other.
 *
 * Any contents may be lent: NaN, infinities, any bytes, a record that some other program wrote. A NaN is outside every range.
 * Which NaN comes back as the peak of a record that holds one means nothing.
 *
 * Answers. The result is the number of the refusal table, and 0 where the call was accepted. Every call, refused or not, writes
 * all its pointers: `*place`, which triangle, node, parameter, row or gauge was refused, and 0 where the call was accepted;
 * `*value`, which is always +0 here; and what the call finds, which is 0 and +0 where it was refused. After a refusal every byte
 * of the record is as found.
 *
 * 1 to 10 as in surge.h, row 1 also for a byte slice that is no whole number of elements; 6 is not asked. And
 *
 *     40  no triangle contains the point                        place: the gauge; 0 for gauge_locate
 *     41  64 gauges are there: this would be the 65th           place: 64
 *     42  a gauge number not yet given out                      place: the number asked
 *     43  the record has another length than 1,345 bytes, or a
 *         count above 64; a seen above 1, in any of the 64
 *         rows, those past the count too                        place: 0; the row
 *
 * Gauges, triangles, nodes and rows count from 0.
 *
 * What a harbour master should know:
 *
 *   - One record serves one mesh. A gauge that lies outside another mesh refuses every update there with 40, for all gauges.
 *   - A load does not rewind a record. Peaks are of all states that were handed over, also of steps after the one that was loaded.
 *   - A peak is kept for the first state that had it: an equal elevation does not replace it, -0 beside +0 neither.
 *   - The elevation at a node's own point is (D*z)/D, which is not always z to the last bit. For the same reason an elevation
 *     need not lie between those of its triangle's corners to the last bit.
 *   - An elevation is never beyond 30.
 *   - A gauge whose peak is +0 may not have been seen at all: look at `seen`.
 */
#ifndef GAUGES_H
#define GAUGES_H

#include <stddef.h>
#include <stdint.h>

#ifdef __cplusplus
extern "C" {
#endif

/*
 * The record: so many bytes, all zero when fresh. A row is 21 bytes; gauge g has the one at byte 1+21g.
 *
 *     byte     bytes
 *     0        1       the gauges given out, 0..64
 *     1+21g    4       x, signed
 *     5+21g    4       y, signed
 *     9+21g    1       seen: 1 where a state was handed over since the gauge was added, else 0
 *     10+21g   8       the peak, a float's pattern
 *     18+21g   4       the step number of the first state that had it
 */
#define GAUGE_RECORD_BYTES 1345
#define GAUGE_MOST 64

/*
 * The arguments that the calls share.
 *
 *   record        the record
 *   state         48N bytes, 6N floats in six runs of N: earlier elevation, present elevation, U, V, Wx, Wy. A gauge takes the present elevation.
 *   x, y          4N bytes each, N whole metres, signed; N is a quarter of x_length
 *   tri           6E bytes, 3E node numbers of 2 bytes from 0, three for each triangle, counter-clockwise
 *   h             8N bytes, N depths
 *   kind          N bytes, N kinds: 0 free, 1 open, 2 held land
 *   dt, tau, k, f the parameters of the run, which row 9 asks. The setting of advection is no part of a gauge.
 *   px, py        a point, in whole metres: any 32-bit numbers
 *   gauge         where it is asked: the number that gauge_add gave out
 *   place, value  one number each, written by every call
 *
 * Rows 1 to 10 are those of a call on a run, so that a state is lent to every call but gauge_peak, and must be one that a step would take.
 */

/*
 * Finds the triangle that contains a point, the lowest-numbered one where there are several: an edge and a corner belong to their triangles.
 * Rows 1 to 5 and 7 to 10, then 40 at place 0.
 *
 *   triangle      one number, written: the triangle when accepted, else 0
 *   place, value  written
 *   the others    read
 */
uint32_t gauge_locate(
    uint32_t *triangle,
    size_t *place, double *value,
    const uint8_t *state, size_t state_length,
    const uint8_t *x, size_t x_length,
    const uint8_t *y, size_t y_length,
    const uint8_t *tri, size_t tri_length,
    const uint8_t *h, size_t h_length,
    const uint8_t *kind, size_t kind_length,
    double dt, double tau, double k, double f,
    int32_t px, int32_t py);

/*
 * Adds a gauge at a point. Rows 1 to 5 and 7 to 10, 43, 41 at place 64, 40 at the number that the gauge would have had. Two gauges may have the
 * same point. No call takes a gauge away: a fresh record has none.
 *
 *   record        read and written when accepted: the count, one more, and the whole row of the new gauge: its point, not seen, +0, 0.
 *                 As found after a refusal.
 *   gauge         one number, written: the number given out, the count before, when accepted, else 0
 *   place, value  written
 *   the others    read
 */
uint32_t gauge_add(
    uint8_t *record, size_t record_length,
    uint32_t *gauge,
    size_t *place, double *value,
    const uint8_t *state, size_t state_length,
    const uint8_t *x, size_t x_length,
    const uint8_t *y, size_t y_length,
    const uint8_t *tri, size_t tri_length,
    const uint8_t *h, size_t h_length,
    const uint8_t *kind, size_t kind_length,
    double dt, double tau, double k, double f,
    int32_t px, int32_t py);

/*
 * The elevation of a state at a gauge: ((w1*z1 + w2*z2) + w3*z3)/D over the corners of the triangle that gauge_locate finds, w1 twice the area of
 * the part that lies opposite corner 1. Rows 1 to 5 and 7 to 10, 43, 42 at the number asked, 40 at that number. No peak is looked at.
 *
 *   elevation     one number, written: the elevation when accepted, else +0
 *   place, value  written
 *   record        read: the gauge's point
 *   the others    read
 */
uint32_t gauge_elevation(
    double *elevation,
    size_t *place, double *value,
    const uint8_t *record, size_t record_length,
    const uint8_t *state, size_t state_length,
    const uint8_t *x, size_t x_length,
    const uint8_t *y, size_t y_length,
    const uint8_t *tri, size_t tri_length,
    const uint8_t *h, size_t h_length,
    const uint8_t *kind, size_t kind_length,
    double dt, double tau, double k, double f,
    uint32_t gauge);

/*
 * Hands over a state: each gauge given out takes its elevation there. Rows 1 to 5 and 7 to 10, 43, then 40 at the first gauge whose point no
 * triangle contains. All gauges are updated or none. A record without gauges is accepted.
 *
 *   record        read and written when accepted: a gauge that was not seen is seen, with this elevation and step; of one that was, peak and
 *                 step are replaced unless the elevation is at most the peak. As found after a refusal.
 *   place, value  written
 *   step          the step number of the state: the clock beside it. It is kept with a peak, and not looked at.
 *   the others    read
 */
uint32_t gauge_update(
    uint8_t *record, size_t record_length,
    size_t *place, double *value,
    const uint8_t *state, size_t state_length,
    const uint8_t *x, size_t x_length,
    const uint8_t *y, size_t y_length,
    const uint8_t *tri, size_t tri_length,
    const uint8_t *h, size_t h_length,
    const uint8_t *kind, size_t kind_length,
    double dt, double tau, double k, double f,
    uint32_t step);

/*
 * The peak of a gauge, as its row has it. 43, then 42 at the number asked. It takes part in no run: no mesh and no state are lent.
 *
 *   seen          one byte, written: 1 where a state was handed over since the gauge was added, 0 where none was or the call is refused
 *   peak, step    one number each, written: the highest elevation so far, and the step number of the first state that had it. Of a gauge not yet
 *                 seen +0 and 0, as gauge_add wrote them, and so after a refusal.
 *   place, value  written
 *   record        read
 */
uint32_t gauge_peak(
    uint8_t *seen, double *peak, uint32_t *step,
    size_t *place, double *value,
    const uint8_t *record, size_t record_length,
    uint32_t gauge);

#ifdef __cplusplus
}
#endif

#endif
