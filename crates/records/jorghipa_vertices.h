/* Jorghipa over records, the other calls: builders, convex bodies, verdicts, settings, assemblies, pairs and moves. A section is
 * an array of vertices, and bodies are records, so that nobody counts numbers.
 *
 * These are jorghipa.h's calls, each handing the vertices on as the numbers that they are: what those promise holds here. The
 * lines that do so are C and not proved. They need libcapi.a, and nothing of librecords.a. What has to be added to a clearance,
 * jorghipa.h says in its head.
 *
 * The number of a reply is 0, or jorghipa.h's; a count of vertices is never odd. Where it is not 0, every other field is 0, but
 * `collision` and `collides` are 1: a refusal that goes unnoticed stops the machine.
 */
#ifndef JORGHIPA_VERTICES_H
#define JORGHIPA_VERTICES_H

#include "jorghipa.h"
#include "jorghipa_records.h"

/* A vertex is its two numbers, with nothing between or behind them. */
typedef char jorghipa_vertex_is_two_numbers[sizeof(jorghipa_vertex) == 2 * sizeof(double) ? 1 : -1];

/* The count of numbers; of more than 256 vertices that of 257, which are refused by their count and never read. */
static inline size_t jorghipa_numbers_of(size_t vertices) { return 2 * (vertices > 256 ? 257 : vertices); }

static inline const double *jorghipa_first_of(const jorghipa_vertex *vertices) { return (const double *)vertices; }

typedef struct {
    uint32_t collision, number;
} jorghipa_verdict_reply;

typedef struct {
    uint32_t collision, boxes, waiting, cut, number;
} jorghipa_walk_verdict_reply;

/* How many vertices were kept, at the front of the space. */
typedef struct {
    size_t kept;
    uint32_t number;
} jorghipa_built;

typedef struct {
    double tolerance;
    uint32_t most, intervals;
} jorghipa_settings;

/* winner is 0 for the chuck, 1 for the work; the rest is the winner's. */
typedef struct {
    uint32_t winner;
    double distance, witness_z, witness_radius;
    uint32_t edge, boxes, waiting, cut, number;
} jorghipa_pair_reply;

typedef struct {
    double distance;
    uint32_t step, collides, colliding_step, boxes, number;
} jorghipa_move_reply;

/* A body of any kind: of the numbers it takes the first. */
typedef struct {
    uint32_t kind;
    double numbers[7];
} jorghipa_body;

static inline jorghipa_body jorghipa_body_of_ball(jorghipa_ball b) {
    jorghipa_body body = {JORGHIPA_KIND_SPHERE, {b.x, b.y, b.z, b.radius, 0, 0, 0}};
    return body;
}

static inline jorghipa_body jorghipa_body_of_bounds(jorghipa_bounds b) {
    jorghipa_body body = {JORGHIPA_KIND_BOX, {b.z0, b.z1, b.r0, b.r1, 0, 0, 0}};
    return body;
}

static inline jorghipa_body jorghipa_body_of_bar(jorghipa_bar b) {
    jorghipa_body body = {JORGHIPA_KIND_CYLINDER, {b.ax, b.ay, b.az, b.bx, b.by, b.bz, b.radius}};
    return body;
}

/* ---- Builders: the space needs room for points + 2 vertices; of a polygon, for as many as there are points. */
static inline jorghipa_built jorghipa_build_section_of(const jorghipa_vertex *points, size_t count, jorghipa_vertex *space,
                                                       size_t room) {
    jorghipa_built built = {0, 0};
    built.number = jorghipa_build_section(jorghipa_first_of(points), jorghipa_numbers_of(count), (double *)space,
                                          jorghipa_numbers_of(room), &built.kept);
    built.kept /= 2;
    return built;
}

static inline jorghipa_built jorghipa_build_polygon_of(const jorghipa_vertex *points, size_t count, jorghipa_vertex *space,
                                                       size_t room) {
    jorghipa_built built = {0, 0};
    built.number = jorghipa_build_polygon(jorghipa_first_of(points), jorghipa_numbers_of(count), (double *)space,
                                          jorghipa_numbers_of(room), &built.kept);
    built.kept /= 2;
    return built;
}

/* ---- Distances */
static inline jorghipa_reply jorghipa_convex_of(const jorghipa_vertex *convex, size_t convex_count,
                                                const jorghipa_vertex *section, size_t count) {
    jorghipa_reply r = {0, 0, 0, 0, 0};
    r.number = jorghipa_convex(jorghipa_first_of(convex), jorghipa_numbers_of(convex_count), jorghipa_first_of(section),
                               jorghipa_numbers_of(count), &r.distance, &r.witness_z, &r.witness_radius, &r.edge);
    return r;
}

/* A cylinder at settings of the caller's; jorghipa_cylinder_of keeps the finest. */
static inline jorghipa_cylinder_reply jorghipa_cylinder_with(const jorghipa_vertex *section, size_t count, jorghipa_bar b,
                                                             jorghipa_settings t) {
    jorghipa_cylinder_reply r = {0, 0, 0, 0, 0, 0, 0, false};
    uint32_t boxes = 0, waiting = 0, cut = 0;
    r.number = jorghipa_cylinder(jorghipa_first_of(section), jorghipa_numbers_of(count), b.ax, b.ay, b.az, b.bx, b.by, b.bz,
                                 b.radius, t.tolerance, t.most, t.intervals, &r.distance, &r.witness_z, &r.witness_radius,
                                 &r.edge, &boxes, &waiting, &cut);
    r.boxes = boxes;
    r.waiting = waiting;
    r.cut = cut != 0;
    return r;
}

static inline jorghipa_pair_reply jorghipa_pair_of(const jorghipa_vertex *chuck, size_t chuck_count, const jorghipa_vertex *work,
                                                   size_t work_count, jorghipa_body body) {
    jorghipa_pair_reply r = {0, 0, 0, 0, 0, 0, 0, 0, 0};
    r.number = jorghipa_pair(jorghipa_first_of(chuck), jorghipa_numbers_of(chuck_count), jorghipa_first_of(work),
                             jorghipa_numbers_of(work_count), body.kind, body.numbers, 7, &r.winner, &r.distance, &r.witness_z,
                             &r.witness_radius, &r.edge, &r.boxes, &r.waiting, &r.cut);
    return r;
}

/* ---- Verdicts */
static inline jorghipa_verdict_reply jorghipa_verdict_sphere_of(const jorghipa_vertex *section, size_t count, jorghipa_ball b,
                                                                double clearance) {
    jorghipa_verdict_reply r = {1, 0};
    r.number = jorghipa_verdict_sphere(jorghipa_first_of(section), jorghipa_numbers_of(count), b.x, b.y, b.z, b.radius, clearance,
                                       &r.collision);
    return r;
}

static inline jorghipa_verdict_reply jorghipa_verdict_box_of(const jorghipa_vertex *section, size_t count, jorghipa_bounds b,
                                                             double clearance) {
    jorghipa_verdict_reply r = {1, 0};
    r.number = jorghipa_verdict_box(jorghipa_first_of(section), jorghipa_numbers_of(count), b.z0, b.z1, b.r0, b.r1, clearance,
                                    &r.collision);
    return r;
}

static inline jorghipa_walk_verdict_reply jorghipa_verdict_cylinder_of(const jorghipa_vertex *section, size_t count,
                                                                       jorghipa_bar b, double clearance) {
    jorghipa_walk_verdict_reply r = {1, 0, 0, 0, 0};
    r.number = jorghipa_verdict_walk(jorghipa_first_of(section), jorghipa_numbers_of(count), b.ax, b.ay, b.az, b.bx, b.by, b.bz,
                                     b.radius, clearance, &r.collision, &r.boxes, &r.waiting, &r.cut);
    return r;
}

static inline jorghipa_verdict_reply jorghipa_verdict_convex_of(const jorghipa_vertex *convex, size_t convex_count,
                                                                const jorghipa_vertex *section, size_t count,
                                                                double clearance) {
    jorghipa_verdict_reply r = {1, 0};
    r.number = jorghipa_verdict_convex(jorghipa_first_of(convex), jorghipa_numbers_of(convex_count), jorghipa_first_of(section),
                                       jorghipa_numbers_of(count), clearance, &r.collision);
    return r;
}

/* Does anything of an assembly hit? Of more than 64 bodies 65 are handed on, which are refused by their count. */
static inline jorghipa_verdict_reply jorghipa_any_hit_of(const jorghipa_vertex *section, size_t count,
                                                         const jorghipa_body *bodies, size_t bodies_count,
                                                         double clearance) {
    jorghipa_verdict_reply r = {1, 0};
    uint32_t kinds[65];
    double numbers[7 * 65];
    size_t n = bodies_count > 64 ? 65 : bodies_count, i, k;
    for (i = 0; i < n; i++) {
        kinds[i] = bodies[i].kind;
        for (k = 0; k < 7; k++) numbers[7 * i + k] = bodies[i].numbers[k];
    }
    r.number = jorghipa_any_hit(jorghipa_first_of(section), jorghipa_numbers_of(count), kinds, n, numbers, 7 * n, clearance,
                                &r.collision);
    return r;
}

/* Trying a straight move from one offset to another. */
static inline jorghipa_move_reply jorghipa_move_of(const jorghipa_vertex *section, size_t count, jorghipa_body body,
                                                   double clearance, jorghipa_place start, jorghipa_place end, uint32_t steps,
                                                   jorghipa_settings t) {
    jorghipa_move_reply r = {0, 0, 1, 0, 0, 0};
    r.number = jorghipa_move(jorghipa_first_of(section), jorghipa_numbers_of(count), body.kind, body.numbers, 7, clearance,
                             start.x, start.y, start.z, end.x, end.y, end.z, steps, t.tolerance, t.most, t.intervals, &r.distance,
                             &r.step, &r.collides, &r.colliding_step, &r.boxes);
    return r;
}

#endif
