/* The form over vertices, each call of it: a bar built from its profile, and what stands beside it measured, judged and moved. No
 * number is counted. */
#include "jorghipa_vertices.h"
#include <stdio.h>

int main(void) {
    const jorghipa_vertex profile[2] = {{0, 10}, {20, 10}};
    const jorghipa_bounds holder = {25, 30, 0, 5};
    const jorghipa_bar drill = {12, 0, 10, 30, 0, 10, 2};
    const jorghipa_ball ball = {0, 0, 30, 4};
    const jorghipa_vertex wedge[3] = {{26, 0}, {30, 0}, {30, 5}};
    const jorghipa_vertex away[5] = {{-100, 0}, {-100, 10}, {-80, 10}, {-80, 0}, {-100, 0}};
    const jorghipa_settings coarse = {0.01, 1024, 4}; /* V is 0.2 mm for this drill: see jorghipa.h */
    const jorghipa_place from = {0, 0, 10}, to = {0, 0, -10};
    jorghipa_vertex bar[4], chuck[5];
    jorghipa_body bodies[2];
    jorghipa_built closed;
    jorghipa_reply convex;
    jorghipa_cylinder_reply bored;
    jorghipa_pair_reply nearer;
    jorghipa_verdict_reply verdict;
    jorghipa_walk_verdict_reply walked;
    jorghipa_move_reply moved;
    jorghipa_built built = jorghipa_build_section_of(profile, 2, bar, 4);
    if (built.number != JORGHIPA_ACCEPTED) return (int)built.number;

    verdict = jorghipa_verdict_box_of(bar, built.kept, holder, 5.5);
    printf("%u vertices; holder: %s\n", (unsigned)built.kept, verdict.collision ? "collision" : "clear");
    walked = jorghipa_verdict_cylinder_of(bar, built.kept, drill, 1);
    printf("drill: %s, %u boxes, %s\n", walked.collision ? "collision" : "clear", walked.boxes, walked.cut ? "cut" : "uncut");

    bodies[0] = jorghipa_body_of_bounds(holder);
    bodies[1] = jorghipa_body_of_bar(drill);
    verdict = jorghipa_any_hit_of(bar, built.kept, bodies, 2, 1);
    printf("lamp: %s\n", verdict.collision ? "red" : "green");
    moved = jorghipa_move_of(bar, built.kept, bodies[0], 1, from, to, 4, coarse);
    printf("holder moved: smallest %g at step %u, collides from step %u\n", moved.distance, moved.step, moved.colliding_step);
    bored = jorghipa_cylinder_with(bar, built.kept, drill, coarse);
    printf("drill: distance %g, %u boxes, %s\n", bored.distance, (unsigned)bored.boxes, bored.cut ? "cut" : "uncut");

    convex = jorghipa_convex_of(wedge, 3, bar, built.kept);
    verdict = jorghipa_verdict_convex_of(wedge, 3, bar, built.kept, 5.5);
    printf("wedge: distance %g, edge %u, %s\n", convex.distance, convex.edge, verdict.collision ? "collision" : "clear");
    verdict = jorghipa_verdict_sphere_of(bar, built.kept, ball, 7);
    printf("ball: %s\n", verdict.collision ? "collision" : "clear");
    closed = jorghipa_build_polygon_of(away, 5, chuck, 5);
    nearer = jorghipa_pair_of(chuck, closed.kept, bar, built.kept, jorghipa_body_of_ball(ball));
    printf("ball: nearer to the %s, distance %g, edge %u, of %u vertices\n", nearer.winner ? "work" : "chuck", nearer.distance,
           nearer.edge, (unsigned)closed.kept);

    /* what is refused was not measured, and is told as a collision */
    verdict = jorghipa_verdict_box_of(bar, 2, holder, 5.5);
    printf("two vertices: number %u, %s\n", verdict.number, verdict.collision ? "stop" : "go");
    return 0;
}
