/* A drill of radius 2 across the spindle, 2 mm above a bar of radius 10: at the finest settings, then at coarse ones. What is
 * told at the coarse ones may be 0.2 mm more than the truth, at the finest 0.00007: see jorghipa.h, "What to add". */
#include "jorghipa.h"
#include <stdio.h>

static uint32_t ask(double tolerance, uint32_t most, uint32_t intervals) {
    const double section[8] = {0, 10, 20, 10, 20, 0, 0, 0};
    double distance, z, radius;
    uint32_t edge, boxes, waiting, cut;
    uint32_t refused = jorghipa_cylinder(section, 8, 12, 0, 10, 30, 0, 10, 2, tolerance, most, intervals, &distance, &z,
                                         &radius, &edge, &boxes, &waiting, &cut);
    if (refused == 0) printf("distance %g, %u boxes, %s\n", distance, boxes, cut ? "cut" : "uncut");
    return refused;
}

int main(void) {
    uint32_t refused = ask(JORGHIPA_TOLERANCE, JORGHIPA_MOST, JORGHIPA_INTERVALS);
    if (refused == 0) refused = ask(0.01, 1024, 4);
    return (int)refused;
}
