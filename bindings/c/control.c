/* In a control's manner. A stepped chuck holds a stepped workpiece, both built from their profiles. A drill across the spindle
 * comes down beside the work's shoulder. Every answer starts as the one that stops the machine, and a refusal leaves it so. */
#include "jorghipa.h"
#include <stdio.h>

/* What the machine needs, and the tolerance of the second look, in mm. */
static const double CLEARANCE = 0.5, SECOND = 0.001;
/* What rounding may add where no magnitude is over 1,024 mm, margin's own included; the lean of a cap, for each mm of radius. */
static const double ROUNDING = 0.00125, CAPS = 1.4143e-4;

struct part { double numbers[32]; size_t count; };

/* ax ay az bx by bz radius: the tip is a */
struct drill { double n[7]; };

static uint32_t refused(const char *what, uint32_t number) {
    switch (number) {
    case JORGHIPA_ACCEPTED: break;
    case JORGHIPA_REFUSED_SKEW_CYLINDER: printf("%s: refused, its axis is neither along nor across\n", what); break;
    case JORGHIPA_REFUSED_NOT_FINITE: printf("%s: refused, an encoder gave no number\n", what); break;
    default: printf("%s: refused %u\n", what, (unsigned)number);
    }
    return number;
}

/* A profile is open towards the axis; this closes it. The count is of numbers, two a point. */
static uint32_t build(struct part *part, const double *profile, size_t count) {
    return refused("profile", jorghipa_build_section(profile, count, part->numbers, 32, &part->count));
}

/* How much more than the true distance a walk may report, an overlap as up to so much; proved beside sound sections (see
 * jorghipa.h). Rounding is on top. */
static double margin(double radius, double tolerance) {
    const double wide = jorghipa_sqrt(2 * radius * tolerance), v = wide > tolerance ? wide : tolerance;
    return (v < radius ? v : radius) + ROUNDING;
}

/* The clearance to ask for, so that a drill that is called clear has the machine's. */
static double needed(struct drill d, double tolerance) { return CLEARANCE + margin(d.n[6], tolerance) + CAPS * d.n[6]; }

/* Half of what the ends of a drill along x stand apart, seen along x. A verdict takes it off by itself, a distance does not. */
static double lean(struct drill d) { return 0.5 * jorghipa_hypot(d.n[1] - d.n[4], d.n[2] - d.n[5]); }

/* A verdict keeps the finest settings, where a walk is often cut and comes out low. So ask once more with a coarser tolerance,
 * which needs a larger margin. */
static int clear_after_all(const struct part *part, struct drill d) {
    double distance, z, radius;
    uint32_t edge, boxes, waiting, cut;
    const uint32_t number =
        jorghipa_cylinder(part->numbers, part->count, d.n[0], d.n[1], d.n[2], d.n[3], d.n[4], d.n[5], d.n[6], SECOND,
                          JORGHIPA_MOST, JORGHIPA_INTERVALS, &distance, &z, &radius, &edge, &boxes, &waiting, &cut);
    if (refused("drill", number) != 0) return 0;
    printf("  at %g mm: distance %.3f, %s, needed %.3f; nearest to edge %u at z %g, radius %g\n", SECOND, distance,
           cut ? "cut" : "uncut", needed(d, SECOND), (unsigned)edge, z, radius);
    return distance - lean(d) > needed(d, SECOND);
}

static const char *judge(const struct part *part, struct drill d) {
    uint32_t collision = 1;
    const uint32_t number = jorghipa_verdict_cylinder(part->numbers, part->count, d.n[0], d.n[1], d.n[2], d.n[3], d.n[4],
                                                      d.n[5], d.n[6], needed(d, JORGHIPA_TOLERANCE), &collision);
    if (refused("drill", number) != 0) return "stop";
    printf("drill at x %g: verdict %s\n", d.n[0], collision ? "collision" : "clear");
    if (!collision) return "feed";
    return clear_after_all(part, d) ? "ask the operator" : "stop";
}

/* The lamp is red unless the whole assembly was judged, and clear; at the finest settings, as the verdict. */
static int lamp_red(const struct part *part, struct drill d) {
    const uint32_t kinds[2] = {JORGHIPA_KIND_CYLINDER, JORGHIPA_KIND_BOX};
    double numbers[14] = {0, 0, 0, 0, 0, 0, 0, /* its holder */ 40, 90, 60, 120, 0, 0, 0};
    uint32_t hit = 1;
    for (int i = 0; i < 7; i++) numbers[i] = d.n[i];
    (void)refused("lamp", jorghipa_any_hit(part->numbers, part->count, kinds, 2, numbers, 14, needed(d, JORGHIPA_TOLERANCE),
                                           &hit));
    return hit != 0;
}

static void nearer(const struct part *chuck, const struct part *work, struct drill d) {
    double distance, z, radius;
    uint32_t winner, edge, boxes, waiting, cut;
    const uint32_t number = jorghipa_pair(chuck->numbers, chuck->count, work->numbers, work->count, JORGHIPA_KIND_CYLINDER,
                                          d.n, 7, &winner, &distance, &z, &radius, &edge, &boxes, &waiting, &cut);
    if (refused("pair", number) == 0)
        printf("nearer: %s, distance %g%s\n", winner ? "work" : "chuck", distance, cut ? ", cut" : "");
}

int main(void) {
    const double chuck_profile[8] = {-80, 100, -30, 100, -30, 60, 0, 60}, work_profile[8] = {0, 25, 60, 25, 60, 15, 90, 15};
    const struct drill high = {{30, 15, 65, 80, 15, 65, 5}}, low = {{22, 15, 65, 80, 15, 65, 5}},
                       lower = {{18, 15, 63, 80, 15, 63, 5}}, skew = {{22, 15, 65, 80, 15, 75, 5}};
    struct part chuck, work;
    if (build(&chuck, chuck_profile, 8) != 0 || build(&work, work_profile, 8) != 0) return 1;
    const struct drill steps[4] = {high, low, lower, skew};
    nearer(&chuck, &work, high);
    for (int i = 0; i < 4; i++) {
        const char *const next = judge(&work, steps[i]);
        printf("  %s; lamp %s\n", next, lamp_red(&work, steps[i]) ? "red" : "green");
    }
    return 0;
}
