/* Jorghipa: the version, and names for the numbers that its calls take and return. Both jorghipa.h and jorghipa_records.h
 * include this. */
#ifndef JORGHIPA_NAMES_H
#define JORGHIPA_NAMES_H

/* 1.0 is the base; each change request of the scope that landed is one minor version. CHANGELOG.md says what a program that
 * links the library has to change for each. */
#define JORGHIPA_VERSION "1.14.4"
#define JORGHIPA_VERSION_MAJOR 1
#define JORGHIPA_VERSION_MINOR 14
#define JORGHIPA_VERSION_PATCH 4
/* 10,000 major + 100 minor + patch. */
#define JORGHIPA_VERSION_NUMBER 11404

/* What a call returns: 0, or the number of the first test that is true, of those that it makes and in its own order. */
enum jorghipa_refusal {
    JORGHIPA_ACCEPTED = 0,
    JORGHIPA_REFUSED_ODD_COUNT = 1,          /* odd count of numbers; of bodies, not seven numbers a body */
    JORGHIPA_REFUSED_TOO_FEW_VERTICES = 2,   /* fewer than 3 vertices; of a builder's points, than 2 */
    JORGHIPA_REFUSED_TOO_MANY_VERTICES = 3,  /* over 256 vertices; of a builder's points, over 254 */
    JORGHIPA_REFUSED_NOT_FINITE = 4,         /* a number is NaN or infinite */
    JORGHIPA_REFUSED_TOO_LARGE = 5,          /* a magnitude over 1,048,576 mm */
    JORGHIPA_REFUSED_RADIUS_BELOW_AXIS = 6,  /* a radius below -1e-9 of the section or of a builder's point */
    JORGHIPA_REFUSED_SPACE_TOO_SMALL = 7,    /* a builder's space */
    JORGHIPA_REFUSED_TOO_FEW_KEPT = 8,       /* a builder keeps fewer than 3 vertices */
    JORGHIPA_REFUSED_NEGATIVE_RADIUS = 9,    /* a body's radius below 0 */
    JORGHIPA_REFUSED_REVERSED_BOUNDS = 10,   /* z1 < z0 or r1 < r0 */
    JORGHIPA_REFUSED_SKEW_CYLINDER = 11,     /* a cylinder neither along the spindle nor across it, along x or y */
    JORGHIPA_REFUSED_STORE_LENGTH = 12,      /* no multiple of 40 bytes; of an edit, the size of its space or of its bytes */
    JORGHIPA_REFUSED_BAD_LINK = 13,          /* a next past the end of the store, or a record for the second time */
    JORGHIPA_REFUSED_WRONG_KIND = 14,        /* a record, or a body, of no known kind */
    JORGHIPA_REFUSED_EMPTY_STORE = 15,       /* no byte at all */
    JORGHIPA_REFUSED_TOO_MANY_RECORDS = 16,  /* over 512 */
    JORGHIPA_REFUSED_TOO_MANY_BODIES = 17,   /* over 64 in an assembly */
    JORGHIPA_REFUSED_BAD_SETTINGS = 18,      /* of the walk: out of range or not finite */
    JORGHIPA_REFUSED_BAD_STEPS = 19,         /* of a move: none, or over 4,096 */
    JORGHIPA_REFUSED_BAD_SEED = 20,          /* of a test load, which no C call makes */
    JORGHIPA_REFUSED_BAD_LOAD = 21,          /* of a test load: fewer than 3, or over 256 */
    JORGHIPA_REFUSED_SETTERS_EDIT = 22,      /* an operator's edit of record 0, of a vertex or of a link, or a new vertex */
    JORGHIPA_REFUSED_STORE_FULL = 23,        /* 512 records, all on the chain */
    JORGHIPA_REFUSED_NO_SUCH_RECORD = 24     /* the record is not on the chain */
};

/* The kind of a body, as in a store, and the numbers that it takes of its seven. */
enum jorghipa_kind {
    JORGHIPA_KIND_SPHERE = 2,   /* x y z radius */
    JORGHIPA_KIND_BOX = 3,      /* z0 z1 r0 r1 */
    JORGHIPA_KIND_CYLINDER = 4  /* ax ay az bx by bz radius; not in a store */
};

/* Who edits a store. Every number but 1 is the operator. */
enum jorghipa_role {
    JORGHIPA_ROLE_SETTER = 1,
    JORGHIPA_ROLE_OPERATOR = 2
};

#endif
