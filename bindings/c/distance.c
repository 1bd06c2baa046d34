/* A bar of radius 10 and length 20, and a tool holder 5 mm beside its end. */
#include "jorghipa.h"
#include <stdio.h>

int main(void) {
    const double points[4] = {0, 10, 20, 10};
    double section[8], distance, z, radius;
    size_t kept;
    uint32_t edge;
    uint32_t refused = jorghipa_build_section(points, 4, section, 8, &kept);
    if (refused == 0) refused = jorghipa_box(section, kept, 25, 30, 0, 5, &distance, &z, &radius, &edge);
    if (refused != 0) return (int)refused;
    printf("distance %g, nearest to z %g, radius %g, edge %u\n", distance, z, radius, edge);
    return 0;
}
