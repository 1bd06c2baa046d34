/* A sphere before a chuck of radius 30 and the bar of radius 10 that it holds: which of the two is nearer, and how far? */
#include "jorghipa.h"
#include <stdio.h>

int main(void) {
    const double chuck[8] = {-40, 30, 0, 30, 0, 0, -40, 0};
    const double work[8] = {0, 10, 20, 10, 20, 0, 0, 0};
    const double sphere[7] = {0, 0, 30, 4, 0, 0, 0};
    double distance, z, radius;
    uint32_t winner, edge, boxes, waiting, cut;
    uint32_t refused = jorghipa_pair(chuck, 8, work, 8, JORGHIPA_KIND_SPHERE, sphere, 7, &winner, &distance, &z, &radius,
                                     &edge, &boxes, &waiting, &cut);
    if (refused == 0) printf("%s, distance %g, edge %u\n", winner ? "work" : "chuck", distance, (unsigned)edge);
    return (int)refused;
}
