/* What a call costs beside 256 vertices, or as many as the argument says: its stack in bytes, arguments included, and processor
 * time. Each call is made by a thread on a painted stack of ours, 16 kB below the thread's own frames; what it wrote there is
 * read back as the kernel sees it. */
#define _POSIX_C_SOURCE 200809L
#include "jorghipa.h"
#include <pthread.h>
#include <stdio.h>
#include <stdlib.h>
#include <string.h>
#include <time.h>

enum { SIZE = 1 << 18, PAINT = 0xA5 };

static double section[512], distance, z, radius;
static size_t kept, length_after;
static uint32_t edge, boxes, waiting, cut, flag, step, record;
static uint8_t space[20480];
static double seconds;

static const double drill[7] = {52, 0.5, 50, 90, 0.5, 50, 5};

static uint32_t nothing(void) { return 0; }

static uint32_t point(void) { return jorghipa_point(section, kept, 60, 0, 50, &distance, &z, &radius, &edge); }

static uint32_t box(void) { return jorghipa_box(section, kept, 40, 60, 52, 70, &distance, &z, &radius, &edge); }

static uint32_t convex(void) {
    const double body[8] = {40, 52, 60, 52, 60, 70, 40, 70};
    return jorghipa_convex(body, 8, section, kept, &distance, &z, &radius, &edge);
}

static uint32_t cylinder(void) {
    return jorghipa_cylinder(section, kept, 52, 0.5, 50, 90, 0.5, 50, 5, JORGHIPA_TOLERANCE, JORGHIPA_MOST,
                             JORGHIPA_INTERVALS, &distance, &z, &radius, &edge, &boxes, &waiting, &cut);
}

static uint32_t verdict(void) {
    return jorghipa_verdict_cylinder(section, kept, 52, 0.5, 50, 90, 0.5, 50, 5, 1, &flag);
}

static uint32_t assembly(void) {
    static uint32_t kinds[64];
    static double numbers[7 * 64];
    for (size_t i = 0; i < 64; i++) {
        const double bounds[4] = {40, 60, 60, 70};
        kinds[i] = i == 0 ? JORGHIPA_KIND_CYLINDER : JORGHIPA_KIND_BOX;
        memcpy(numbers + 7 * i, i == 0 ? drill : bounds, i == 0 ? sizeof drill : sizeof bounds);
    }
    return jorghipa_any_hit(section, kept, kinds, 64, numbers, 7 * 64, -100, &flag);
}

static uint32_t pair(void) {
    return jorghipa_pair(section, kept, section, kept, JORGHIPA_KIND_CYLINDER, drill, 7, &flag, &distance, &z, &radius,
                         &edge, &boxes, &waiting, &cut);
}

static uint32_t move(void) {
    return jorghipa_move(section, kept, JORGHIPA_KIND_CYLINDER, drill, 7, 1, 0, 0, 0, 1, 0, 0, 1, JORGHIPA_TOLERANCE,
                         JORGHIPA_MOST, JORGHIPA_INTERVALS, &distance, &step, &flag, &record, &boxes);
}

static uint32_t read_store(void) { return jorghipa_read_store(space, sizeof space, &record); }

static uint32_t replace(void) {
    const uint8_t sphere[40] = {0, 0, 0, 0, JORGHIPA_KIND_SPHERE};
    return jorghipa_replace(space, sizeof space, sizeof space, JORGHIPA_ROLE_OPERATOR, 511, sphere, 40, &length_after);
}

/* A full store: 512 records, the section's vertices, then spheres. The machine is little-endian. */
static void fill_store(void) {
    for (uint32_t i = 0; i < 512; i++) {
        const int vertex = i > 0 && i <= kept / 2;
        const uint32_t next = (i + 1) % 512, kind = vertex ? 1 : i == 0 ? 0 : 2;
        memcpy(space + 40 * i, &next, 4);
        memcpy(space + 40 * i + 4, &kind, 4);
        if (vertex) memcpy(space + 40 * i + 8, section + 2 * (i - 1), 16);
    }
}

/* Processor seconds of one call, at least 20 ms of them. */
static void *run(void *call) {
    volatile char ballast[16384];
    uint32_t (*const make)(void) = *(uint32_t (**)(void))call;
    struct timespec from, to;
    unsigned calls = 0;
    ballast[0] = ballast[sizeof ballast - 1] = 0;
    clock_gettime(CLOCK_THREAD_CPUTIME_ID, &from);
    do {
        const uint32_t refused = make();
        if (refused != 0) printf("refused %u\n", (unsigned)refused);
        clock_gettime(CLOCK_THREAD_CPUTIME_ID, &to);
        seconds = (double)(to.tv_sec - from.tv_sec) + 1e-9 * (double)(to.tv_nsec - from.tv_nsec);
        calls++;
    } while (seconds < 0.02);
    seconds /= calls;
    return NULL;
}

/* How many bytes of the stack were written. */
static size_t written(uint32_t (*make)(void)) {
    static unsigned char seen[SIZE];
    pthread_attr_t attributes;
    pthread_t thread;
    size_t untouched = 0;
    char *const stack = (char *)malloc(SIZE);
    FILE *const memory = fopen("/proc/self/mem", "rb");
    (void)make(); /* binds what it calls, which would take the dynamic linker's stack */
    if (stack == NULL || memory == NULL) exit(1);
    memset(stack, PAINT, SIZE);
    pthread_attr_init(&attributes);
    if (pthread_attr_setstack(&attributes, stack, SIZE) != 0) exit(1);
    if (pthread_create(&thread, &attributes, run, &make) != 0 || pthread_join(thread, NULL) != 0) exit(1);
    if (fseek(memory, (long)(uintptr_t)stack, SEEK_SET) != 0 || fread(seen, 1, SIZE, memory) != SIZE) exit(1);
    while (untouched < SIZE && seen[untouched] == PAINT) untouched++;
    fclose(memory);
    pthread_attr_destroy(&attributes);
    free(stack);
    return SIZE - untouched;
}

int main(int arguments, char **argument) {
    static const struct { const char *name; uint32_t (*make)(void); } calls[] = {
        {"point", point}, {"box", box}, {"convex", convex}, {"cylinder", cylinder}, {"verdict_cylinder", verdict},
        {"any_hit", assembly}, {"pair", pair}, {"move", move}, {"read_store", read_store}, {"replace", replace}};
    const size_t vertices = arguments > 1 ? strtoul(argument[1], NULL, 10) : 256;
    double points[508];
    for (size_t i = 0; i < 254; i++) {
        points[2 * i] = 0.4 * (double)i;
        points[2 * i + 1] = 50;
    }
    if (vertices > 256 || jorghipa_build_section(points, 2 * vertices - 4, section, 512, &kept) != 0) return 1;
    fill_store();
    (void)written(nothing);
    const size_t none = written(nothing);
    printf("beside %u vertices\n%-16s %8s %12s\n", (unsigned)vertices, "call", "stack", "ms");
    for (size_t i = 0; i < sizeof calls / sizeof calls[0]; i++) {
        const size_t bytes = written(calls[i].make) - none;
        printf("%-16s %8u %12.4f\n", calls[i].name, (unsigned)bytes, 1e3 * seconds);
    }
    return 0;
}
