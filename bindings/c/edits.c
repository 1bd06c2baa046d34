/* An operator moves the box of a store, tries to move a vertex, and adds a sphere. The machine must be little-endian. */
#include "jorghipa.h"
#include <stdio.h>
#include <string.h>

struct record { uint32_t next, kind; double numbers[4]; };

int main(void) {
    /* 01's example: a bar of radius 10 and length 20 in records 1 to 4, a box beside it in record 5 */
    const struct record store[6] = {{1, 0, {0}}, {2, 1, {0, 10}}, {3, 1, {20, 10}}, {4, 1, {20, 0}},
                                    {5, 1, {0, 0}}, {0, 3, {25, 30, 0, 5}}};
    const struct record box = {0, 3, {26, 30, 0, 5}}, vertex = {5, 1, {0, 1}}, sphere = {0, 2, {0, 0, 30, 4}};
    static uint8_t space[20480];
    size_t length = sizeof store;
    uint32_t record = 0;
    memcpy(space, store, sizeof store);
    uint32_t refused;
    refused = jorghipa_replace(space, sizeof space, length, JORGHIPA_ROLE_OPERATOR, 5, (const uint8_t *)&box, 40, &length);
    printf("moved %u\n", (unsigned)refused);
    refused = jorghipa_replace(space, sizeof space, length, JORGHIPA_ROLE_OPERATOR, 4, (const uint8_t *)&vertex, 40, &length);
    printf("vertex %u\n", (unsigned)refused);
    refused = jorghipa_add(space, sizeof space, length, JORGHIPA_ROLE_OPERATOR, (const uint8_t *)&sphere, 40, &length);
    printf("added %u", (unsigned)refused);
    printf(", length %u, read %u\n", (unsigned)length, (unsigned)jorghipa_read_store(space, length, &record));
    return 0;
}
