/* Jorghipa: distances between a turned half-section and the bodies beside it, for lathe controls.
 *
 * ---- Shapes
 * All lengths are mm; z runs along the spindle, a radius is a distance from it. No coordinate, bound, radius or clearance has a
 * magnitude over 1,048,576. A section is 3 to 256 vertices of a closed polygon in (z, radius), the last joined to the first: a
 * pointer to the numbers z, radius, z, radius, .. and the count of NUMBERS, twice the vertices. A convex body is given likewise.
 *
 * A PROFILE IS NOT A SECTION. The points along a chuck's outside are open towards the axis. Handed over as they are, they count
 * as a polygon that is closed straight from the last to the first. Between that edge and the axis there is then no solid, and a
 * tool in there is told clear. Nothing checks this: jorghipa_build_section closes a profile to the axis.
 *
 * ---- What a distance means
 * Negative inside, 0 on contact. The witness is a point (z, radius) of the section, and *edge the number of the edge that
 * supplied it: edge k starts at vertex k, counted from 0.
 *    below 0     an overlap. Of a point or a sphere it is how deep. Of any other body IT IS NO DEPTH: the body is probed at some
 *                points alone, and -1e-8 marks an overlap that none of them measured, be it of micrometres or of centimetres.
 *                The witness is then a vertex of the section within the body, or a place where an edge enters it
 *    0           contact; of a convex body perhaps a full overlap: corners that lie on the outline are not inside it. A section
 *                given as its own convex body is told 0
 *    +infinity   of a point or a sphere beside a section nowhere over 1e-9 from the axis: there is no surface. The witness is
 *                the first vertex, the edge 0
 *    *cut = 1    of a cylinder across the spindle, whose walk measured its last box with a piece still due. The distance is then
 *                the least of the boxes'. But for rounding, a cut distance is never above the true gap, nor above 0 where the
 *                straight bar overlaps, and at most 0.4143 times the radius below it: a cut can turn the lamp red beside a bar
 *                that clears, but not green beside one that collides. Cuts are common at the finest settings and rarer at coarser
 *                ones, which need more clearance: see below
 * A cylinder lies along z, x or y, and may lean a little: along z by 1.4e-4 radians, which over a metre is 0.07 mm at each end;
 * across the spindle as much towards the other axis across, and 1e-8 towards z. So give both ends of a bar across the same z:
 * 1e-5 mm apart over 100 mm is refused with 11. Its distance is that of the bar as if straight. A verdict counts the lean: it
 * takes off half of what the ends stand apart, seen along the axis. So does a move's collision.
 *
 * ---- What to add to the clearance
 * For a cylinder across the spindle, of radius R and measured with tolerance t, let V = min(R, max(t, sqrt(2 R t))). Rounded up:
 *              t = 1e-9    1e-4     0.001    0.01
 *    R = 2     0.0000633   0.0200   0.0633   0.2000
 *    R = 10    0.000142    0.0448   0.1415   0.4473
 *    R = 50    0.000317    0.1000   0.3163   1.0000
 * An uncut walk may report up to V more than the true distance, and a true overlap, however deep, as any value up to V. A
 * DISTANCE BELOW V DOES NOT SAY THAT THE BAR CLEARS: a drill of radius 2 straight through a ring reads +0.0003 at t = 0.001.
 *    Clearance   of a verdict, an assembly or a move: what the machine needs, plus V. Calls without settings have t = 1e-9
 *    Distance    that the caller compares: take off V; of every cylinder that leans, along z too, also half of what its ends
 *                stand apart, seen along the axis. Verdicts and a move's collision take that half off by themselves
 *    Rounding    for every kind of body add 0.00125 mm; where a magnitude is over 1,024 mm, 1.25 mm
 *    Caps        where a cylinder leans, add 1.4143e-4 R: a verdict counts the lean of its axis and not that of its caps
 *    Below 0     never give a clearance below 0: an overlap of centimetres may be told as -1e-8, and is then clear
 *    At 0        a convex body that lies wholly in the solid, or a bar of radius 0 that passes through it, may be clear
 * bindings/c/control.c does this sum. It is meant for an outline that is listed once and nowhere meets itself, whose radii are 0
 * or at least 1/128 mm, and for bodies above the axis; docs/LIMITS.md has what is known to go wrong elsewhere. How much is proved:
 *    PROVED, beside a section whose radii are 0 or at least 1/128 mm, of the exact solid, turned about the spindle:
 *       points, spheres   the distance exceeds that to no point of the solid by more than 2^-26 mm (1.5e-8); a sphere judged
 *                         clear has its clearance, less 1e-9 and 2^-26 mm. Where no number is over 1,024 mm, 2^-36 for 2^-26
 *       boxes             by no more than 0.29 mm, where no number is over 1,024 mm 0.00028 mm; judged clear, the clearance is
 *                         kept but for that
 *       across            by no more than V, if the walk was not cut, and the rounding above; judged clear, the clearance is kept
 *                         but for these, from the bar as if straight and as it leans, its caps aside
 *    NOT PROVED: convex bodies; cylinders along the spindle; caps; how far a cut is low. docs/TRUTH.md has more
 *
 * ---- What is promised
 * Proved for every argument, NaN and infinities too: a call ends, writes nowhere but into what it was lent, and returns 0 or the
 * number of the first of its tests that is true, of enum jorghipa_refusal. CONTRACTS.txt, beside a staged header, has it in full.
 *    0           the answer is in the lent places. A distance is never NaN, and at most 2^28 in magnitude or the +infinity above
 *    a number    nothing that was lent has changed. *collision, *hit and *collides are what they were: SET THEM TO 1 BEFORE THE
 *                CALL, and a refusal that goes unnoticed stops the machine. Only jorghipa_read_store then writes a place
 * Nothing is kept between calls; the archive has no heap, no global, no file, so that calls may run beside each other. It asks
 * the linker for memcpy and memset alone; no libm.
 *
 * ---- What is needed, and nothing checks
 * Pointers   valid for their count, aligned, and not null even at count 0. No place that is lent for writing overlaps any other
 *            place that is lent to the same call
 * Floats     rounded to nearest, subnormals kept, all traps masked, as when a program starts. With another rounding the answers
 *            differ. Calls raise flags and clear none. Most raise INEXACT. Besides: UNDERFLOW beside coordinates such as 1e-200;
 *            DIVBYZERO and INVALID for a cylinder whose ends a and b are the same, OVERFLOW and UNDERFLOW for one 5e-324 long;
 *            INVALID for a lifted call whose middle is at x = y = 0. They say nothing of the answer, which holds all the same.
 *            bindings/c/flags.c shows them
 * Machine    x86-64, ELF, the System V calling convention
 * Stack      in bytes, whatever is asked: a root or a builder 200, a point or a sphere 1,400, a box or a convex body 2,500, a
 *            cylinder, its verdict, a pair or a move 7,200, an assembly 14,400, reading a store 6,900, editing one 30,000.
 *            Nothing calls itself. Where a program binds lazily, its first memset or memcpy takes some 3,000 besides
 * Time       grows as boxes times edges. A box, or a cylinder along the spindle, is one box; a cylinder across is up to `most`,
 *            which is 8,192 where a call takes no settings; a convex body is one for each of its edges; a pair measures twice, an
 *            assembly each body, a move steps + 1 times.
 *            A walk of 8,192 boxes beside 256 edges took 10 ms on a 2-core virtual machine, a box beside them 0.003 ms, a point
 *            0.002 ms. Most edges are passed over there. Measured one and all, they took 160 to 310 ms, 0.1 us a box and edge:
 *            reckon with that for a section of which few can be. bindings/c/costs.c measures both on yours
 *
 * ---- The order of the tests
 * 1 2 3 4 5 18 6 7 8 9 10 11, of which a call makes those that it names, each over all lists and numbers that it is given. So 18
 * stands between 5 and 6. 4 and 5 do not look at the settings: a tolerance of NaN is 18. A call with another order says so.
 *
 * jorghipa_records.h has the queries of a point, sphere, box and cylinder over an array of vertices, jorghipa_vertices.h the
 * other calls.
 */
#ifndef JORGHIPA_H
#define JORGHIPA_H

#include "jorghipa_names.h"
#include <stddef.h>
#include <stdint.h>

#ifdef __cplusplus
extern "C" {
#endif

/* The version of the linked archive, 10,000 major + 100 minor + patch; JORGHIPA_VERSION_NUMBER is that of this header. */
uint32_t jorghipa_version(void);

/* The f64 nearest the root of x, ties to even; IEEE 754's squareRoot for every x. */
double jorghipa_sqrt(double x);

/* The f64 nearest the root of a^2 + b^2, ties to even; IEEE 754's hypot for every a and b. */
double jorghipa_hypot(double a, double b);

/* Distance of the point (x, y, z) from the section; z is the spindle's axis. Numbers 1 to 6. */
uint32_t jorghipa_point(const double *section, size_t section_count, double x, double y, double z,
                        double *distance, double *witness_z, double *witness_radius, uint32_t *edge);

/* Distance of a sphere about (x, y, z). Numbers 1 to 6, 9. */
uint32_t jorghipa_sphere(const double *section, size_t section_count, double x, double y, double z, double radius,
                         double *distance, double *witness_z, double *witness_radius, uint32_t *edge);

/* Distance of the box z0..z1, r0..r1 in (z, radius). Numbers 1 to 6, 10. What lies below the axis is not mirrored: a box at
 * r -9..-6 reads 11 mm clear of a ring of radii 5 to 10 that it passes through. Give r0 of at least 0. */
uint32_t jorghipa_box(const double *section, size_t section_count, double z0, double z1, double r0, double r1,
                      double *distance, double *witness_z, double *witness_radius, uint32_t *edge);

/* Distance of a convex polygon in (z, radius). It may lie below the axis; what lies there is not mirrored. 0 can be a full
 * overlap. Nothing checks that it is convex: of another polygon an overlap may read clear. Numbers 1 to 5, over both lists,
 * and 6. */
uint32_t jorghipa_convex(const double *convex, size_t convex_count, const double *section, size_t section_count,
                         double *distance, double *witness_z, double *witness_radius, uint32_t *edge);

/* Builds a section from 2 to 254 points of a half-profile: drops a point within 1e-12 of the last kept one, raises
 * a radius in [-1e-9, 0) to 0, closes to the axis. Kept numbers fill the front of space, the rest stays as it was;
 * *kept is the count of NUMBERS written. space needs room for 2 (n + 2) numbers, n the given points. Numbers 1 to 8. */
uint32_t jorghipa_build_section(const double *points, size_t points_count, double *space, size_t space_count,
                                size_t *kept);

/* Builds a section from a closed polygon of 3 to 256 vertices: drops repeated points and a repeated closing vertex;
 * raises a radius in [-1e-9, 0) to 0. space needs room for 2 n numbers. Numbers 1 to 8. */
uint32_t jorghipa_build_polygon(const double *points, size_t points_count, double *space, size_t space_count,
                                size_t *kept);

/* The finest settings of the walk, which are those of every call that takes none. */
#define JORGHIPA_TOLERANCE 1e-9
#define JORGHIPA_MOST 8192
#define JORGHIPA_INTERVALS 16

/* Distance of the flat-capped cylinder from a to b, along the spindle (z) or across it (x or y). *boxes counts the boxes
 * that were measured, *waiting the most pieces that waited at any one time; *cut is 1 where the walk stopped at `most`
 * boxes with a piece still due, and then the distance is the least of the boxes'. Numbers 1 to 5, 18, 6, 9, 11.
 *
 * The settings of the walk across the spindle. It samples the cylinder at intervals + 1 values of z, then measures boxes
 * around pieces of it, and halves a piece whose box is wider, and varies more in radius, than the tolerance.
 *    tolerance   1e-9 to 1 mm: how closely a piece's bounds must agree before it is left as it is
 *    most        1 to 8,192: the most boxes that are measured
 *    intervals   1 to 64: the intervals between samples
 * The tolerance decides what has to be added to the clearance: V, in the head of this file. A coarser one is cut less often and
 * faster, and needs more clearance; docs/SCOPE.md has tables. Leave `most` and `intervals` at 8,192 and 16.
 * Along the spindle, and at radius at most 1e-15, one box is measured at every setting. */
uint32_t jorghipa_cylinder(const double *section, size_t section_count, double ax, double ay, double az, double bx,
                           double by, double bz, double radius, double tolerance, uint32_t most, uint32_t intervals,
                           double *distance, double *witness_z, double *witness_radius, uint32_t *edge,
                           uint32_t *boxes, uint32_t *waiting, uint32_t *cut);

/* The same distances with the witness in the machine's axes. With h = hypot(x, y) of the body's middle - a point's or a
 * sphere's own x and y, of a cylinder (ax + bx) / 2 and (ay + by) / 2 - and the witness's z and radius, it is
 *    (radius x / h, radius y / h, z), multiplied first, and (radius, 0, z) where h is 0;
 * a radius below 0 counts as 0. A cylinder is measured at the finest settings. Numbers of the plain call without 18. */
uint32_t jorghipa_lifted_point(const double *section, size_t section_count, double x, double y, double z,
                               double *distance, double *witness_x, double *witness_y, double *witness_z,
                               uint32_t *edge);

uint32_t jorghipa_lifted_sphere(const double *section, size_t section_count, double x, double y, double z,
                                double radius, double *distance, double *witness_x, double *witness_y,
                                double *witness_z, uint32_t *edge);

uint32_t jorghipa_lifted_cylinder(const double *section, size_t section_count, double ax, double ay, double az,
                                  double bx, double by, double bz, double radius, double *distance, double *witness_x,
                                  double *witness_y, double *witness_z, uint32_t *edge, uint32_t *boxes,
                                  uint32_t *waiting, uint32_t *cut);

/* *collision is 1 exactly when the judged distance + 1e-9 < clearance, else 0; set it to 1 before the call. Numbers of the query
 * without 18; 4 and 5 for the clearance. What the clearance has to be is said in the head of this file. A cylinder is measured at
 * the finest settings, so that a bar whose walk is cut may be called a collision though it is up to 0.4143 times its radius
 * further away than the clearance; jorghipa_move judges at others. What is judged is the distance itself; of a cylinder, whose
 * axis may lean a little, the distance less half of
 *    hypot(ax - bx, ay - by)   along the spindle
 *    hypot(ay - by, az - bz)   across it along x
 *    hypot(ax - bx, az - bz)   across it along y */
uint32_t jorghipa_verdict_sphere(const double *section, size_t section_count, double x, double y, double z,
                                 double radius, double clearance, uint32_t *collision);

uint32_t jorghipa_verdict_box(const double *section, size_t section_count, double z0, double z1, double r0, double r1,
                              double clearance, uint32_t *collision);

uint32_t jorghipa_verdict_cylinder(const double *section, size_t section_count, double ax, double ay, double az,
                                   double bx, double by, double bz, double radius, double clearance,
                                   uint32_t *collision);

/* The same verdict on a cylinder, with the counts and the mark of its walk as jorghipa_cylinder gives them: where *cut is 1, the
 * distance that was judged may be 0.4143 times the radius low, and a collision none. */
uint32_t jorghipa_verdict_walk(const double *section, size_t section_count, double ax, double ay, double az, double bx,
                               double by, double bz, double radius, double clearance, uint32_t *collision,
                               uint32_t *boxes, uint32_t *waiting, uint32_t *cut);

uint32_t jorghipa_verdict_convex(const double *convex, size_t convex_count, const double *section,
                                 size_t section_count, double clearance, uint32_t *collision);

/* Does anything of an assembly hit? Body i of `count` has the kind kinds[i] of enum jorghipa_kind, and the seven numbers from
 * numbers[7 * i] on, of which it takes the first; the rest is not looked at.
 * *hit is 1 exactly when the verdict on some body is collision, else 0; of no body it is 0. The tests, in their order: 1 where
 * numbers_count is not 7 * count; 14 for another kind, where count is at most 64; 1 to 6 of section and clearance; 17 where count
 * is over 64; then the first bad body's 4, 5, 9, 10 or 11, also where a body before it collides. */
uint32_t jorghipa_any_hit(const double *section, size_t section_count, const uint32_t *kinds, size_t count,
                          const double *numbers, size_t numbers_count, double clearance, uint32_t *hit);

/* Chuck and work together: the smaller of the distances that the two sections give by themselves; the chuck wins an equal
 * one. *winner is 0 for the chuck, 1 for the work; the other places are those of the winner, as of a cylinder. A sphere and a
 * convex polygon count no box, a box one; nothing waits, uncut. A cylinder is measured at the finest settings.
 *
 * The body's kind is one of enum jorghipa_kind, and it has seven numbers, of which it takes the first.
 *
 * The order: 1 where numbers_count is not 7, 14 for another kind; 1 to 6 of the chuck, 1 to 6 of the work; then of the body
 * 4 and 5, and 9, or 10, or 9 and 11. */
uint32_t jorghipa_pair(const double *chuck, size_t chuck_count, const double *work, size_t work_count, uint32_t kind,
                       const double *numbers, size_t numbers_count, uint32_t *winner, double *distance,
                       double *witness_z, double *witness_radius, uint32_t *edge, uint32_t *boxes, uint32_t *waiting,
                       uint32_t *cut);

/* The same of a convex polygon: 1 to 6 of the chuck, 1 to 6 of the work, 1 to 5 of the polygon. */
uint32_t jorghipa_pair_convex(const double *chuck, size_t chuck_count, const double *work, size_t work_count,
                              const double *convex, size_t convex_count, uint32_t *winner, double *distance,
                              double *witness_z, double *witness_radius, uint32_t *edge, uint32_t *boxes,
                              uint32_t *waiting, uint32_t *cut);

/* Trying a straight move: the body is placed at steps 0 to `steps`, 1 to 4,096, and each placement is one query with these
 * settings. Along each axis the offset at step i is start + (end - start) * i / steps, with the multiplication first; it is
 * added to a sphere's centre and to both ends of a cylinder; a box's z bounds take z, its r bounds x. Kind and numbers of the
 * body are as in jorghipa_pair.
 *
 * The settings count for the clearance as in the head of this file: it has to be above V. Between two steps nothing is measured.
 * A box that a step takes below the axis is not mirrored. With equal offsets, such as 0, and one step this is the verdict on
 * the body at chosen settings, the lean counted; it is measured twice.
 *
 * *distance is the smallest of all steps, *step the first that has it. *collides is 1 where some step's judged distance
 * + 1e-9 < clearance, else 0, and *colliding_step the first such step, or 0. *boxes is the sum of all steps' boxes: a sphere
 * counts none, a box or a cylinder along the spindle one.
 *
 * The order: 1 where numbers_count is not 7, 14 for another kind; 1 to 5, 18, 6, 9, 10, 11 over section, body, clearance,
 * offsets and settings; 19 where steps is 0 or over 4,096; then of the first refused placement 4, 5, 9, 10 or 11. */
uint32_t jorghipa_move(const double *section, size_t section_count, uint32_t kind, const double *numbers,
                       size_t numbers_count, double clearance, double start_x, double start_y, double start_z,
                       double end_x, double end_y, double end_z, uint32_t steps, double tolerance, uint32_t most,
                       uint32_t intervals, double *distance, uint32_t *step, uint32_t *collides,
                       uint32_t *colliding_step, uint32_t *boxes);

/* ---- Stores: docs/STORES.md says what the records are
 *
 * A store is 1 to 512 records of 40 bytes. Its tests, in their order:
 *   12  the length is no multiple of 40      13  a next past the end, or a record for the second time
 *   15  no byte at all                       14  a record of the wrong kind
 *   16  over 512 records                      2 to 6 of its section
 *
 * Reads a store. Where it is accepted, *record stays as it was. Where it is refused, *record is the record that is wrong, the
 * K of `refused N at K`: that of the bad next for 13, the first bad one in chain order for 14 and 6, else 0. */
uint32_t jorghipa_read_store(const uint8_t *store, size_t store_count, uint32_t *record);

/* Edits a store that lies at the front of a space of 20,480 bytes and is `length` bytes long. *length_after is its length
 * afterwards. role is of enum jorghipa_role: 1 the setter, any other number the operator. The tests, in their order:
 *   12  bytes_count is not 40, or space_count not 20,480
 *       the store's, as above; a length past the space is 12 or 16
 *   24  (replace) the record is not on the chain
 *   22  an operator's edit of record 0, of a vertex, of a link (a replacement with another next), or one that makes a vertex
 *   23  (add) 512 records, all on the chain
 *       the outcome's: an edit that would make a store that is refused
 * A refused edit changes no byte.
 *
 * Puts 40 bytes in the place of the record, which is on the chain; record 0 is. The length stays. */
uint32_t jorghipa_replace(uint8_t *space, size_t space_count, size_t length, uint32_t role, uint32_t record,
                          const uint8_t *bytes, size_t bytes_count, size_t *length_after);

/* Puts 40 bytes at the end of the chain, with next 0 whatever next they have: in the lowest record that is not on the chain, or
 * in a new one if all are. The next field that leads to it is the only other one that changes. */
uint32_t jorghipa_add(uint8_t *space, size_t space_count, size_t length, uint32_t role, const uint8_t *bytes,
                      size_t bytes_count, size_t *length_after);

#ifdef __cplusplus
}
#endif

#endif
