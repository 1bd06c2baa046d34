/* A sphere of radius 4 comes from z 50 to z 20, where a bar of radius 10 ends: how near does it come, and does it hit? */
#include "jorghipa.h"
#include <stdio.h>

int main(void) {
    const double section[8] = {0, 10, 20, 10, 20, 0, 0, 0};
    const double sphere[7] = {0, 0, 50, 4, 0, 0, 0};
    double distance;
    uint32_t step, collides = 1, colliding_step, boxes;
    uint32_t refused = jorghipa_move(section, 8, JORGHIPA_KIND_SPHERE, sphere, 7, 1.0, 0, 0, 0, 0, 0, -30, 6,
                                     JORGHIPA_TOLERANCE, JORGHIPA_MOST, JORGHIPA_INTERVALS, &distance, &step, &collides,
                                     &colliding_step, &boxes);
    if (refused == 0) {
        printf("smallest %g at step %u, ", distance, (unsigned)step);
        if (collides) printf("collides from step %u\n", (unsigned)colliding_step);
        else printf("clear\n");
    }
    return (int)refused;
}
