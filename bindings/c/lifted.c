/* A probe's ball of radius 4 beside the end of a bar of radius 10: where, in the machine's axes, is the bar nearest to it? */
#include "jorghipa.h"
#include <stdio.h>

int main(void) {
    const double section[8] = {0, 10, 20, 10, 20, 0, 0, 0};
    double distance, x, y, z;
    uint32_t edge;
    uint32_t refused = jorghipa_lifted_sphere(section, 8, -3, 4, 30, 4, &distance, &x, &y, &z, &edge);
    if (refused == 0) printf("distance %g, nearest to x %g, y %g, z %g, edge %u\n", distance, x, y, z, (unsigned)edge);
    return (int)refused;
}
