/* A bar of radius 10 and length 20, kept as an array of structs, and a cylinder along the spindle beside it. */
#include "jorghipa_records.h"
#include <stdio.h>

int main(void) {
    const jorghipa_vertex section[4] = {{0, 10}, {20, 10}, {20, 0}, {0, 0}};
    const jorghipa_bar bar = {15, 0, 0, 15, 0, 30, 2};
    jorghipa_cylinder_reply reply = jorghipa_cylinder_of(section, 4, bar);
    if (reply.number != 0) return (int)reply.number;
    printf("distance %g, nearest to z %g, radius %g, edge %u\n", reply.distance, reply.witness_z, reply.witness_radius,
           reply.edge);
    return 0;
}
