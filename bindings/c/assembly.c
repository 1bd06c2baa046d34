/* A holder, a box, and its tip, a sphere, 1 mm and then 0.25 mm beside a bar of radius 10: does anything come within 0.5 mm? */
#include "jorghipa.h"
#include <stdio.h>

static uint32_t ask(double tip) {
    const double section[8] = {0, 10, 20, 10, 20, 0, 0, 0};
    const uint32_t kinds[2] = {JORGHIPA_KIND_BOX, JORGHIPA_KIND_SPHERE};
    const double numbers[14] = {5, 15, 14, 30, 0, 0, 0, tip, 0, 10, 2, 0, 0, 0};
    uint32_t hit = 1;
    uint32_t refused = jorghipa_any_hit(section, 8, kinds, 2, numbers, 14, 0.5, &hit);
    if (refused == 0) printf("%s\n", hit ? "hit" : "clear");
    return refused;
}

int main(void) {
    uint32_t refused = ask(13);
    if (refused == 0) refused = ask(12.25);
    return (int)refused;
}
