/* What hull.h and hull_shared.h share: the numbers of kinds and of codes, limits, points and replies. */
#ifndef HULL_COMMON_H
#define HULL_COMMON_H

#include <stddef.h>
#include <stdint.h>
#include <stdlib.h>
#include <string.h>

#if UINTPTR_MAX < UINT64_MAX
#error "The hull libraries need a machine with 64-bit pointers"
#endif

/* A value as another type, in C and in C++ without a warning of casts. */
#ifdef __cplusplus
#define HULL_CAST(type, value) static_cast<type>(value)
#else
#define HULL_CAST(type, value) ((type)(value))
#endif

/* The version of these headers, and of the archives that are installed with them. */
#define HULL_VERSION "3.13.0"

/* The greatest size of a coordinate, of a point and of a direction: 2^40. */
#define HULL_COORDINATE_MAX INT64_C(1099511627776)
/* The greatest limit of a set: how many different points it may have. */
#define HULL_LIMIT_MAX 1048576
/* The greatest multiplicity of a point. */
#define HULL_MULTIPLICITY_MAX 65535

/* The kinds of calls, each with the codes that it may return. The numbers will not change. */
typedef enum hull_kind {
    /* written by tools/table.py: kinds */
    HULL_KIND_ADD = 1,         /* adds the point, or 1 to its multiplicity: ADDED, AGAIN, TOO_MANY, NO_MEMORY */
    HULL_KIND_REMOVE = 2,      /* takes 1 from the multiplicity of the point: REMOVED, LEFT, ABSENT */
    HULL_KIND_PLACE = 3,       /* the location of the point: INSIDE, ON, OUTSIDE */
    HULL_KIND_TANGENTS = 4,    /* the tangent points seen from the point: TANGENTS, NO_TANGENT */
    HULL_KIND_EXTREME = 5,     /* the first of the farthest points in the direction: POINT, EMPTY */
    HULL_KIND_VERTICES = 6,    /* how many vertices there are: VERTICES, NO_MEMORY; `x` and `y` are not read */
    HULL_KIND_AREA = 7,        /* twice the area: NUMBER; `x` and `y` are not read */
    HULL_KIND_COUNT = 8,       /* how many different points there are: NUMBER; `x` and `y` are not read */
    HULL_KIND_MULTIPLICITY = 9 /* the multiplicity of the point, 0 if it is not there: NUMBER; a seat can't ask for it */
    /* end of what tools/table.py writes */
} hull_kind;

/* What a call returns. The numbers will not change. If a code does not say otherwise, nothing changed. */
typedef enum hull_code {
    /* written by tools/table.py: codes */
    HULL_OK = 0,              /* there is an empty set in the storage; or the set was ended */
    HULL_OUT_OF_RANGE = 1,    /* a coordinate is larger than 2^40 in size, or a double is not finite */
    HULL_ZERO_DIRECTION = 2,  /* both components of the direction are 0 */
    HULL_ADDED = 3,           /* the point is new, and is there now */
    HULL_AGAIN = 4,           /* the point was there, and now has multiplicity `number`, at least 2 */
    HULL_TOO_MANY = 5,        /* the point is new and there are as many as the limit, or its multiplicity is 65,535 */
    HULL_NO_MEMORY = 6,       /* malloc refused; the call may be made again */
    HULL_REMOVED = 7,         /* the point had multiplicity 1, and is gone */
    HULL_LEFT = 8,            /* the point is still there, with multiplicity `number` */
    HULL_ABSENT = 9,          /* the point is not there */
    HULL_POINT = 10,          /* the point (`x`, `y`) */
    HULL_EMPTY = 11,          /* there is no point */
    HULL_INSIDE = 12,         /* the hull covers the point, which is not on its boundary */
    HULL_ON = 13,             /* the point is on the boundary: a vertex, on an edge, or on a hull that is a point or a segment */
    HULL_OUTSIDE = 14,        /* the hull does not cover the point */
    HULL_TANGENTS = 15,       /* the left point (`x`, `y`) and the right one (`other_x`, `other_y`) */
    HULL_NO_TANGENT = 16,     /* there is no point, or the hull covers the one asked about */
    HULL_NUMBER = 17,         /* `number`; an area is 2^64 times `high` more */
    HULL_VERTICES = 18,       /* there are `number` vertices, which are at the front of the array if one was passed */
    HULL_TOO_SMALL = 19,      /* the array is too small for the `number` vertices or bytes that are to be written */
    HULL_CLEARED = 20,        /* there is no point any more */
    HULL_OUT_OF_ORDER = 21,   /* a point of an array in order does not follow the one before it, by x and then y */
    HULL_UNKNOWN_KIND = 22,   /* no kind that can be asked here has this number */

    /* of convex polygons only */
    HULL_INTERSECTING = 23,   /* they have a point in common */
    HULL_DISJOINT = 24,       /* a direction (`other_x`, `other_y`), at most 2^41 in size, separates them: of the one, no vertex is farther
                               * in it than (`x`, `y`), and each vertex of the other is */
    HULL_COVERED = 25,        /* the polygon covers the point, which is its own nearest */
    HULL_VERTEX = 26,         /* the vertex (`x`, `y`) is the nearest */
    HULL_EDGE = 27,           /* the foot on the edge from (`x`, `y`) to the next vertex, (`other_x`, `other_y`), is the nearest */
    HULL_BOX = 28,            /* the box from its least point (`x`, `y`) to its greatest, (`other_x`, `other_y`) */
    HULL_WITHIN = 29,         /* the other polygon covers a vertex of this one */
    HULL_CROSSING = 30,       /* a segment between two vertices of this polygon crosses one between two of the other */
    HULL_POINTS = 31,         /* the two vertices (`x`, `y`) and (`other_x`, `other_y`) */

    /* of shared hulls and seats only */
    HULL_OPEN = 32,           /* the shared hull is open now */
    HULL_OUT_OF_LIMITS = 33,  /* a limit, a capacity or a number of seats is 0 or too great (a limit in hull_init, too) */
    HULL_WAS_OPENED = 34,     /* the shared hull was opened before */
    HULL_ACQUIRED = 35,       /* the seat is in the storage now */
    HULL_NO_SEAT = 36,        /* no seat of this number is free: it is acquired, or there never was one */
    HULL_STORAGE_IN_USE = 37, /* the storage has a seat already */
    HULL_NOT_OPEN = 38,       /* the shared hull is not open */
    HULL_RELEASED = 39,       /* the seat is released, and the storage has none */
    HULL_VACANT = 40,         /* the storage has no seat */
    HULL_WAITING = 41,        /* the seat has a number, whose call is not finished */
    HULL_SLOT_IN_USE = 42,    /* the seat's slot of the shared hull is not free */
    HULL_TAKEN = 43,          /* the seat has a number now */
    HULL_NOT_YET = 44,        /* another number is served: look again */
    HULL_NO_NUMBER = 45,      /* the seat has no number to look for */
    HULL_FULL = 46,           /* the journal has as many lines as it may have until it is drained: the call was not made, and the seat has
                               * no number any more */
    HULL_SEATS_OUT = 47,      /* a seat is acquired: the shared hull stays open */
    HULL_CLOSED = 48,         /* the shared hull is closed, and has its journal */
    HULL_NOT_CLOSED = 49,     /* the shared hull is not closed */
    HULL_TEXT = 50,           /* the text was written to the front of the array: `number` bytes */
    HULL_ENDED = 51,          /* the shared hull is ended */
    HULL_IN_USE = 52,         /* no seat is acquired, but a call on the shared hull or a seat is under way: it stays open */
    HULL_RESERVED = 53,       /* the segment has space for lines now */
    HULL_SEGMENT_IN_USE = 54, /* the segment has space or lines already */
    HULL_NO_SPACE = 55,       /* the segment has too little space for the lines that the journal may have: no look was made */
    HULL_NO_LINES = 56,       /* the segment has no lines */
    HULL_NO_JOURNAL = 57,     /* the text is not a journal: line `number` of it, from 1, has the first fault, `high`: 1 its form, 2 a
                               * number, 3 a coordinate, 4 a seat, 5 a word, 6 the text ends before its end line, 7 no header */
    HULL_OLD_RULES = 58,      /* the journal is of version 1 or 2, which does not count points, so it can't be continued */
    HULL_ILLEGAL = 59,        /* the journal is not a legal history: line `number` of its text, from 1, is the first that is wrong */
    HULL_TOO_FEW_SEATS = 60,  /* the journal has lines by `number` seats (0 to `number` - 1), more than were asked for */

    /* of checked arrays only */
    HULL_NO_POLYGON = 61,     /* the array is not a convex polygon (only if arrays are checked) */

    /* of admission, in which calls of seats wait, only */
    HULL_BUSY = 62,           /* the call was not admitted in time: no number was taken, and no call made */
    HULL_OTHER_GATE = 63,     /* the gate is that of another shared hull, or the seat was acquired with another: no call was made */

    /* of journal files only */
    HULL_NO_FILE = 64,        /* the system refused a call on the file, for the reason in errno */
    HULL_DAMAGED = 65,        /* line `number` of the file, from 1, is wrong, and it is not the torn end of a segment */
    HULL_DURABLE = 66,        /* the lines before line `number` are durable */

    /* of readers only */
    HULL_READERS_SET = 67,    /* the shared hull takes so many readers */
    HULL_SNAPSHOT_TAKEN = 68, /* the reader has this snapshot, which was the newest */
    HULL_OLD = 69             /* the reader has the snapshot that it had before: others delayed a newer one */
    /* end of what tools/table.py writes */
} hull_code;

/* written by tools/table.py: replies */
/* The result of a call: a code (hull_code), and the fields that it names above; all others are 0. */
typedef struct hull_reply {
    uint32_t code;
    int64_t x;
    int64_t y;
    int64_t other_x;
    int64_t other_y;
    uint64_t number;
    uint64_t high;
} hull_reply;

/* A point, or a direction. */
typedef struct hull_point {
    int64_t x;
    int64_t y;
} hull_point;

/* A point and its multiplicity. */
typedef struct hull_held {
    int64_t x;
    int64_t y;
    uint32_t multiplicity;
} hull_held;
/* end of what tools/table.py writes */

/* Returns HULL_VERSION, for a library that was built with these headers and is loaded at run time. */
static inline const char *hull_version(void) {
    return HULL_VERSION;
}

/* Returns the name of a code as above, for messages: hull_code_name(9) is "HULL_ABSENT"; "no code" if no code has the number. */
static inline const char *hull_code_name(uint32_t code) {
    switch (code) {
    /* written by tools/table.py: names */
    case HULL_OK: return "HULL_OK";
    case HULL_OUT_OF_RANGE: return "HULL_OUT_OF_RANGE";
    case HULL_ZERO_DIRECTION: return "HULL_ZERO_DIRECTION";
    case HULL_ADDED: return "HULL_ADDED";
    case HULL_AGAIN: return "HULL_AGAIN";
    case HULL_TOO_MANY: return "HULL_TOO_MANY";
    case HULL_NO_MEMORY: return "HULL_NO_MEMORY";
    case HULL_REMOVED: return "HULL_REMOVED";
    case HULL_LEFT: return "HULL_LEFT";
    case HULL_ABSENT: return "HULL_ABSENT";
    case HULL_POINT: return "HULL_POINT";
    case HULL_EMPTY: return "HULL_EMPTY";
    case HULL_INSIDE: return "HULL_INSIDE";
    case HULL_ON: return "HULL_ON";
    case HULL_OUTSIDE: return "HULL_OUTSIDE";
    case HULL_TANGENTS: return "HULL_TANGENTS";
    case HULL_NO_TANGENT: return "HULL_NO_TANGENT";
    case HULL_NUMBER: return "HULL_NUMBER";
    case HULL_VERTICES: return "HULL_VERTICES";
    case HULL_TOO_SMALL: return "HULL_TOO_SMALL";
    case HULL_CLEARED: return "HULL_CLEARED";
    case HULL_OUT_OF_ORDER: return "HULL_OUT_OF_ORDER";
    case HULL_UNKNOWN_KIND: return "HULL_UNKNOWN_KIND";
    case HULL_INTERSECTING: return "HULL_INTERSECTING";
    case HULL_DISJOINT: return "HULL_DISJOINT";
    case HULL_COVERED: return "HULL_COVERED";
    case HULL_VERTEX: return "HULL_VERTEX";
    case HULL_EDGE: return "HULL_EDGE";
    case HULL_BOX: return "HULL_BOX";
    case HULL_WITHIN: return "HULL_WITHIN";
    case HULL_CROSSING: return "HULL_CROSSING";
    case HULL_POINTS: return "HULL_POINTS";
    case HULL_OPEN: return "HULL_OPEN";
    case HULL_OUT_OF_LIMITS: return "HULL_OUT_OF_LIMITS";
    case HULL_WAS_OPENED: return "HULL_WAS_OPENED";
    case HULL_ACQUIRED: return "HULL_ACQUIRED";
    case HULL_NO_SEAT: return "HULL_NO_SEAT";
    case HULL_STORAGE_IN_USE: return "HULL_STORAGE_IN_USE";
    case HULL_NOT_OPEN: return "HULL_NOT_OPEN";
    case HULL_RELEASED: return "HULL_RELEASED";
    case HULL_VACANT: return "HULL_VACANT";
    case HULL_WAITING: return "HULL_WAITING";
    case HULL_SLOT_IN_USE: return "HULL_SLOT_IN_USE";
    case HULL_TAKEN: return "HULL_TAKEN";
    case HULL_NOT_YET: return "HULL_NOT_YET";
    case HULL_NO_NUMBER: return "HULL_NO_NUMBER";
    case HULL_FULL: return "HULL_FULL";
    case HULL_SEATS_OUT: return "HULL_SEATS_OUT";
    case HULL_CLOSED: return "HULL_CLOSED";
    case HULL_NOT_CLOSED: return "HULL_NOT_CLOSED";
    case HULL_TEXT: return "HULL_TEXT";
    case HULL_ENDED: return "HULL_ENDED";
    case HULL_IN_USE: return "HULL_IN_USE";
    case HULL_RESERVED: return "HULL_RESERVED";
    case HULL_SEGMENT_IN_USE: return "HULL_SEGMENT_IN_USE";
    case HULL_NO_SPACE: return "HULL_NO_SPACE";
    case HULL_NO_LINES: return "HULL_NO_LINES";
    case HULL_NO_JOURNAL: return "HULL_NO_JOURNAL";
    case HULL_OLD_RULES: return "HULL_OLD_RULES";
    case HULL_ILLEGAL: return "HULL_ILLEGAL";
    case HULL_TOO_FEW_SEATS: return "HULL_TOO_FEW_SEATS";
    case HULL_NO_POLYGON: return "HULL_NO_POLYGON";
    case HULL_BUSY: return "HULL_BUSY";
    case HULL_OTHER_GATE: return "HULL_OTHER_GATE";
    case HULL_NO_FILE: return "HULL_NO_FILE";
    case HULL_DAMAGED: return "HULL_DAMAGED";
    case HULL_DURABLE: return "HULL_DURABLE";
    case HULL_READERS_SET: return "HULL_READERS_SET";
    case HULL_SNAPSHOT_TAKEN: return "HULL_SNAPSHOT_TAKEN";
    case HULL_OLD: return "HULL_OLD";
    /* end of what tools/table.py writes */
    default: return "no code";
    }
}

/* Returns 1 if a code says that a call was refused or could not be made, and 0 if it is an answer: other languages raise or return an error for
 * the first. A call that was refused has changed nothing, unless its function says so. */
static inline int hull_is_refusal(uint32_t code) {
    switch (code) {
    /* written by tools/table.py: refusals */
    case HULL_OUT_OF_RANGE:
    case HULL_ZERO_DIRECTION:
    case HULL_TOO_MANY:
    case HULL_NO_MEMORY:
    case HULL_TOO_SMALL:
    case HULL_OUT_OF_ORDER:
    case HULL_UNKNOWN_KIND:
    case HULL_OUT_OF_LIMITS:
    case HULL_WAS_OPENED:
    case HULL_NO_SEAT:
    case HULL_STORAGE_IN_USE:
    case HULL_NOT_OPEN:
    case HULL_VACANT:
    case HULL_WAITING:
    case HULL_SLOT_IN_USE:
    case HULL_NO_NUMBER:
    case HULL_FULL:
    case HULL_SEATS_OUT:
    case HULL_NOT_CLOSED:
    case HULL_IN_USE:
    case HULL_SEGMENT_IN_USE:
    case HULL_NO_SPACE:
    case HULL_NO_LINES:
    case HULL_NO_JOURNAL:
    case HULL_OLD_RULES:
    case HULL_ILLEGAL:
    case HULL_TOO_FEW_SEATS:
    case HULL_NO_POLYGON:
    case HULL_BUSY:
    case HULL_OTHER_GATE:
    case HULL_NO_FILE:
    case HULL_DAMAGED: return 1;
    /* end of what tools/table.py writes */
    default: return 0;
    }
}

/* Returns the address of an array, or if it has no elements one that is not null, which the proved functions of hull_shared.h
 * require. */
static inline void *hull_array(const void *array, size_t count) {
    static const uint64_t none = 0;
    const void *chosen = &none;
    void *address;
    if (count > 0) {
        chosen = array;
    }
    memcpy(&address, &chosen, sizeof address); /* the proved functions take arrays that they only read as const again */
    return address;
}

/* Returns memory from malloc, of so many bytes at a multiple of the alignment (a power of 2), for hull_storage_free; null if malloc
 * refuses. (C99 and C++ need not have aligned_alloc.) */
static inline void *hull_storage_new(size_t size, size_t alignment) {
    void *block = malloc(sizeof(void *) + alignment - 1 + size);
    unsigned char *storage;
    uintptr_t address;
    if (block == NULL) {
        return NULL;
    }
    memcpy(&storage, &block, sizeof storage);
    storage += sizeof(void *);
    memcpy(&address, &storage, sizeof address);
    storage += (alignment - address % alignment) % alignment;
    memcpy(storage - sizeof(void *), &block, sizeof(void *));
    return storage;
}

/* Frees memory of hull_storage_new; does nothing for null. */
static inline void hull_storage_free(void *storage) {
    unsigned char *begin;
    void *block;
    if (storage != NULL) {
        memcpy(&begin, &storage, sizeof begin);
        memcpy(&block, begin - sizeof(void *), sizeof(void *));
        free(block);
    }
}

#endif
