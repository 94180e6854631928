/* Points from doubles and back, and vertices as well-known text. It needs no library but that of C.
 *
 * If your coordinates are doubles, choose a power of two: a double v becomes the coordinate v * 2^power. With power 20, for
 * example, a lattice of steps of 2^-20 covers -2^20 to 2^20. A double that is not on the lattice is rounded to the nearest
 * coordinate, and the call says so: answers are exact for the rounded points. */
#ifndef HULL_EXCHANGE_H
#define HULL_EXCHANGE_H

#include "hull_common.h"

#include <stdio.h>

#ifdef __cplusplus
extern "C" {
#endif

/* What became of a double. */
typedef enum hull_rounding {
    HULL_EXACT = 0,        /* the coordinate is v * 2^power */
    HULL_ROUNDED = 1,      /* the nearest coordinate to it; of two as near the even one */
    HULL_NO_COORDINATE = 2 /* none is: v is not finite, or too great for a coordinate with this power */
} hull_rounding;

/* Writes the coordinate v * 2^power of a double to `coordinate`, which is unchanged if there is none. The power may be any. */
static inline hull_rounding hull_from_double(double v, int power, int64_t *coordinate) {
    uint64_t bits, size, rest, half;
    int shift;
    memcpy(&bits, &v, sizeof bits);
    /* |v| is size * 2^shift */
    size = bits & ((UINT64_C(1) << 52) - 1);
    shift = HULL_CAST(int, bits >> 52 & 2047);
    if (shift == 2047) {
        return HULL_NO_COORDINATE;
    }
    size |= shift == 0 ? 0 : UINT64_C(1) << 52;
    shift = (shift == 0 ? 1 : shift) - 1075;
    if (size == 0) {
        *coordinate = 0;
        return HULL_EXACT;
    }
    /* beyond these all is too great, or rounds to 0 */
    shift += power > 2048 ? 2048 : power < -2048 ? -2048 : power;
    rest = half = 0;
    if (shift > 40) {
        return HULL_NO_COORDINATE;
    } else if (shift >= 0) {
        if (size > HULL_CAST(uint64_t, HULL_COORDINATE_MAX) >> shift) {
            return HULL_NO_COORDINATE;
        }
        size <<= shift;
    } else if (shift > -55) {
        half = UINT64_C(1) << (-shift - 1);
        rest = size & (2 * half - 1);
        size >>= -shift;
        size += rest > half || (rest == half && size % 2 == 1);
    } else {
        rest = 1;
        size = 0;
    }
    if (size > HULL_CAST(uint64_t, HULL_COORDINATE_MAX)) {
        return HULL_NO_COORDINATE;
    }
    *coordinate = bits >> 63 ? -HULL_CAST(int64_t, size) : HULL_CAST(int64_t, size);
    return rest == 0 ? HULL_EXACT : HULL_ROUNDED;
}

/* Scales a direction (dx, dy) of doubles to integers and writes it to `x` and `y`: both are multiplied by the power of two that
 * makes the greater one at least 2^39 and less than 2^40 in size. Returns HULL_EXACT if both are integers then, so that it is
 * the same direction; else each is rounded as by hull_from_double: HULL_ROUNDED. (0, 0) stays (0, 0). Returns
 * HULL_NO_COORDINATE, and leaves `x` and `y` unchanged, if one is not finite. */
static inline hull_rounding hull_direction_from_doubles(double dx, double dy, int64_t *x, int64_t *y) {
    uint64_t first, second, greatest;
    int64_t at_x = 0, at_y = 0;
    hull_rounding of_x, of_y;
    int power;
    memcpy(&first, &dx, sizeof first);
    memcpy(&second, &dy, sizeof second);
    first &= INT64_MAX;
    second &= INT64_MAX;
    /* the sizes of doubles are in order as their bits are */
    greatest = first > second ? first : second;
    power = 1023 + 39 - HULL_CAST(int, greatest >> 52);
    if (greatest >> 52 == 0) {
        uint64_t size = greatest;
        power = 1022 + 39 + 52;
        while (size > 1) {
            size >>= 1;
            power--;
        }
    }
    of_x = hull_from_double(dx, power, &at_x);
    of_y = hull_from_double(dy, power, &at_y);
    if (of_x == HULL_NO_COORDINATE || of_y == HULL_NO_COORDINATE) {
        return HULL_NO_COORDINATE;
    }
    *x = at_x;
    *y = at_y;
    return of_x == HULL_ROUNDED || of_y == HULL_ROUNDED ? HULL_ROUNDED : HULL_EXACT;
}

/* Returns whether two doubles are equal, without a warning of compilers that distrust `==`. */
static inline int hull_is_equal_double(double a, double b) {
    return a <= b && a >= b;
}

/* Returns coordinate / 2^power, exact for powers from -960 to 1000. */
static inline double hull_to_double(int64_t coordinate, int power) {
    double v = HULL_CAST(double, coordinate);
    int i;
    for (i = 0; i < power && !hull_is_equal_double(v, 0); i++) {
        v /= 2;
    }
    for (i = 0; i > power && !hull_is_equal_double(v, 0) && hull_is_equal_double(v - v, 0); i--) {
        v *= 2;
    }
    return v;
}

/* Replaces the decimal point of the locale in the text of a double, which may have several bytes, by a point. Returns the new length. */
static inline size_t hull_with_point(char *text) {
    size_t from, length = 0;
    for (from = 0; text[from] != 0; from++) {
        if (strchr("0123456789+-einfa", text[from]) != NULL) {
            text[length++] = text[from];
        } else if (length == 0 || text[length - 1] != '.') {
            text[length++] = '.';
        }
    }
    text[length] = 0;
    return length;
}

/* Writes coordinate / 2^power as text: with the power 0 as an integer, else with the fewest digits that give that double again, and with a
 * point in any locale. Returns its length; 0, of an empty text, if it is greater than all doubles. */
static inline size_t hull_number_text(int64_t coordinate, int power, char text[32]) {
    double v = hull_to_double(coordinate, power);
    int digits = 15;
    if (power == 0) {
        return HULL_CAST(size_t, snprintf(text, 32, "%lld", HULL_CAST(long long, coordinate)));
    }
    if (!hull_is_equal_double(v - v, 0)) {
        text[0] = 0;
        return 0;
    }
    do {
        snprintf(text, 32, "%.*g", digits, v);
    } while (!hull_is_equal_double(strtod(text, NULL), v) && digits++ < 17);
    return hull_with_point(text);
}

/* Returns whether no coordinate divided by 2^power is greater than all doubles. */
static inline int hull_are_doubles(const hull_point *vertices, size_t count, int power) {
    size_t i;
    int are_all = 1;
    for (i = 0; i < count && are_all && power < 0; i++) {
        double x = hull_to_double(vertices[i].x, power), y = hull_to_double(vertices[i].y, power);
        are_all = hull_is_equal_double(x - x, 0) && hull_is_equal_double(y - y, 0);
    }
    return are_all;
}

/* Writes vertices as well-known text (OGC 06-103r4), which GEOS, PostGIS and QGIS read: POLYGON EMPTY, a POINT, a LINESTRING,
 * or a POLYGON whose ring is closed and runs counterclockwise. Coordinates are divided by 2^power. Like snprintf, it writes at
 * most `capacity` bytes with a 0 at their end, and returns the length of the whole text without that; `out` may be null if
 * `capacity` is 0. Returns 0, for an empty text, if one is greater than all doubles. */
static inline size_t hull_wkt(const hull_point *vertices, size_t count, int power, char *out, size_t capacity) {
    const char *begin = count == 0 ? "POLYGON EMPTY" : count == 1 ? "POINT (" : count == 2 ? "LINESTRING (" : "POLYGON ((";
    const char *end = count == 0 ? "" : count < 3 ? ")" : "))";
    size_t points = count < 3 ? count : count + 1, length = 0, i, j, k;
    size_t pieces = hull_are_doubles(vertices, count, power) ? points + 2 : 0;
    for (i = 0; i < pieces; i++) {
        char text[72];
        const char *piece = i == 0 ? begin : i == points + 1 ? end : text;
        if (piece == text) {
            hull_point p = vertices[i - 1 < count ? i - 1 : 0];
            j = i == 1 ? 0 : (memcpy(text, ", ", 2), HULL_CAST(size_t, 2));
            j += hull_number_text(p.x, power, text + j);
            text[j++] = ' ';
            j += hull_number_text(p.y, power, text + j);
            text[j] = 0;
        }
        for (k = 0; piece[k] != 0; k++, length++) {
            if (length + 1 < capacity) {
                out[length] = piece[k];
            }
        }
    }
    if (capacity > 0) {
        out[length < capacity ? length : capacity - 1] = 0;
    }
    return length;
}

#ifdef __cplusplus
}
#endif
#endif
