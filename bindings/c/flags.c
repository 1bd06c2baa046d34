/* Which floating-point flags calls raise besides INEXACT, beside the ones that jorghipa.h names. Link it with -lm. It ends with 1
 * where they differ. An emulator such as valgrind may keep no flags. */
#include "jorghipa.h"
#include <fenv.h>
#include <math.h>
#include <stdio.h>

static const double BAR[8] = {0, 10, 20, 10, 20, 0, 0, 0};
static double distance, x, y, z, radius;
static uint32_t edge, boxes, waiting, cut;

static int look(const char *what, uint32_t number, uint32_t number_named, int named) {
    const int raised = fetestexcept(FE_ALL_EXCEPT) & ~FE_INEXACT;
    printf("%s: number %u,%s%s%s%s%s%s\n", what, (unsigned)number, raised ? "" : " none", raised & FE_INVALID ? " INVALID" : "",
           raised & FE_DIVBYZERO ? " DIVBYZERO" : "", raised & FE_OVERFLOW ? " OVERFLOW" : "",
           raised & FE_UNDERFLOW ? " UNDERFLOW" : "", raised == named && number == number_named ? "" : "  NOT AS NAMED");
    return raised != named || number != number_named;
}

static int point(const char *what, double px, double py, int named) {
    feclearexcept(FE_ALL_EXCEPT);
    return look(what, jorghipa_point(BAR, 8, px, py, 30, &distance, &z, &radius, &edge), 0, named);
}

static int lifted(const char *what, double px, double py, int named) {
    feclearexcept(FE_ALL_EXCEPT);
    return look(what, jorghipa_lifted_point(BAR, 8, px, py, 30, &distance, &x, &y, &z, &edge), 0, named);
}

/* Its end a is at (15, 0, 0); b is so far from there. */
static int cylinder(const char *what, double dx, double dz, uint32_t number, int named) {
    feclearexcept(FE_ALL_EXCEPT);
    return look(what, jorghipa_cylinder(BAR, 8, 15, 0, 0, 15 + dx, 0, dz, 2, 0.01, JORGHIPA_MOST, JORGHIPA_INTERVALS, &distance,
                                        &z, &radius, &edge, &boxes, &waiting, &cut), number, named);
}

static int hypotenuse(const char *what, double a, double b, int named) {
    feclearexcept(FE_ALL_EXCEPT);
    distance = jorghipa_hypot(a, b);
    return look(what, 0, 0, named);
}

int main(void) {
    int wrong = 0;
    wrong |= hypotenuse("hypotenuse of infinity and 1", INFINITY, 1, 0);
    wrong |= hypotenuse("hypotenuse of infinity and NaN", -INFINITY, NAN, 0);
    wrong |= point("point off the axis", 3, 4, 0);
    wrong |= point("point on the axis", 0, 0, 0);
    wrong |= point("point at x = y = 1e-200", 1e-200, 1e-200, FE_UNDERFLOW);
    wrong |= lifted("lifted point off the axis", 3, 4, 0);
    wrong |= lifted("lifted point on the axis", 0, 0, FE_INVALID);
    wrong |= cylinder("cylinder along, 30 long", 0, 30, 0, 0);
    wrong |= cylinder("cylinder along, 5e-324 long", 0, 5e-324, 0, FE_OVERFLOW | FE_UNDERFLOW);
    wrong |= cylinder("cylinder whose ends are the same", 0, 0, 0, FE_DIVBYZERO | FE_INVALID);
    wrong |= cylinder("cylinder across, 100 long", 100, 0, 0, 0);
    wrong |= cylinder("cylinder across, its ends 1e-5 apart in z", 100, 1e-5, JORGHIPA_REFUSED_SKEW_CYLINDER, 0);
    return wrong;
}
