/* Jorghipa over records: jorghipa.h's queries with the section as an array of vertices, the body as a record, and the answer as
 * a record. So a section is counted in vertices here, never in numbers.
 *
 * ---- Shapes
 * All lengths are mm, none over 1,048,576 in magnitude; z runs along the spindle, a radius is a distance from it. A section is a
 * pointer to 3 to 256 vertices of a closed polygon, the last joined to the first, and their count. A PROFILE IS NOT A SECTION:
 * it is open towards the axis, and what lies there is then no solid. Close it, by (last z, 0) and (first z, 0).
 *
 * ---- What a reply means
 * LOOK AT number FIRST. 0 is an answer. Any other is the lowest that applies, of enum jorghipa_refusal, and all other fields are
 * then 0: a distance of 0 that nobody measured. A count of vertices cannot be odd, so number 1 is never given; nor is 18, since
 * these calls keep the finest settings.
 *
 * A distance is negative inside, 0 on contact; the witness is a point of the section, and edge k, which supplied it, starts at
 * vertex k, counted from 0. A negative distance is no depth but of a point or a sphere: -1e-8 marks an overlap that no probe
 * measured. At +infinity, for a point or a sphere, the section is nowhere over 1e-9 from the axis. Where cut is true, the
 * distance may be 0.4143 times the radius low. Where it is not, it may be high: a distance below V does not say that a bar across
 * clears. V is that of jorghipa.h at tolerance 1e-9, and READ THERE WHAT TO ADD TO A CLEARANCE. A bar may lean a little, and is
 * measured as if straight. Bounds below the axis are not mirrored. jorghipa.h says all this in full.
 *
 * ---- What is promised
 * Proved for every argument, NaN and infinities too: a call ends, writes nowhere but into its reply, and that is the one that
 * CONTRACTS.txt, beside a staged header, defines. Nothing is kept between calls; the archive has no heap, no global, no file, so
 * that calls may run beside each other. It asks the linker for memset alone; no libm.
 *
 * ---- What is needed, and nothing checks
 * Pointers   valid for their count, aligned, and not null even at count 0
 * Floats     rounded to nearest, subnormals kept, all traps masked; which flags are raised is said in jorghipa.h
 * Machine    x86-64, ELF, the System V calling convention
 * Stack      in bytes, whatever is asked: a point or a sphere 5,400, a box 6,700, a bar 9,800; the vertices are copied there
 * Time       that of the query of jorghipa.h
 */
#ifndef JORGHIPA_RECORDS_H
#define JORGHIPA_RECORDS_H

#include "jorghipa_names.h"
#include <stdbool.h>
#include <stddef.h>
#include <stdint.h>

#ifdef __cplusplus
extern "C" {
#endif

typedef struct {
    double z, radius;
} jorghipa_vertex;

typedef struct {
    double x, y, z;
} jorghipa_place;

typedef struct {
    double x, y, z, radius;
} jorghipa_ball;

/* z0..z1, r0..r1 in (z, radius). */
typedef struct {
    double z0, z1, r0, r1;
} jorghipa_bounds;

/* A flat-capped cylinder from a to b, along the spindle (z) or across it (x or y). */
typedef struct {
    double ax, ay, az, bx, by, bz, radius;
} jorghipa_bar;

typedef struct {
    double distance, witness_z, witness_radius;
    uint32_t edge;
    uint32_t number;
} jorghipa_reply;

/* boxes counts the boxes that were measured, waiting the most pieces that waited at any one time; cut says that the walk
 * stopped at 8,192 boxes with a piece still due, and then the distance is the least of the boxes'. */
typedef struct {
    double distance, witness_z, witness_radius;
    uint32_t edge;
    size_t boxes, waiting;
    uint32_t number;
    bool cut;
} jorghipa_cylinder_reply;

/* Numbers 2 to 6; for a ball and a bar also 9, for bounds 10, for a bar 11. */
jorghipa_reply jorghipa_point_of(const jorghipa_vertex *section, size_t count, jorghipa_place place);

jorghipa_reply jorghipa_sphere_of(const jorghipa_vertex *section, size_t count, jorghipa_ball ball);

jorghipa_reply jorghipa_box_of(const jorghipa_vertex *section, size_t count, jorghipa_bounds bounds);

jorghipa_cylinder_reply jorghipa_cylinder_of(const jorghipa_vertex *section, size_t count, jorghipa_bar bar);

#ifdef __cplusplus
}
#endif

#endif
