/* A collision check of another library, libccd's GJK (Gilbert, Johnson and Keerthi, 1988), with a support function of this one: two
 * plates, prisms over convex polygons, of which one is moved over a grid. Each answer is compared with the exact one. Compile with
 *
 *     cc gjk.c $(pkg-config --cflags --libs hull ccd) -lm -o gjk
 */
#include <ccd/ccd.h>
#include <hull.h>
#include <stdio.h>

/* a plate, 2 thick: its polygon, where it has been moved to, and its height */
typedef struct plate {
    const hull_point *vertices;
    size_t count;
    int64_t x, y;
    double z;
} plate;

/* the point of a plate that is farthest in a direction: GJK asks for nothing else */
static void farthest(const void *object, const ccd_vec3_t *direction, ccd_vec3_t *point) {
    const plate *p = (const plate *)object;
    hull_reply r = hull_polygon_extreme_d(p->vertices, p->count, ccdVec3X(direction), ccdVec3Y(direction));
    ccdVec3Set(point, (ccd_real_t)(r.x + p->x), (ccd_real_t)(r.y + p->y), p->z + (ccdVec3Z(direction) < 0 ? -1 : 1));
}

/* a point inside it */
static void middle(const void *object, ccd_vec3_t *point) {
    const plate *p = (const plate *)object;
    ccdVec3Set(point, (ccd_real_t)(p->vertices[0].x + p->x) + 1, (ccd_real_t)(p->vertices[0].y + p->y), p->z);
}

static int collide(const plate *one, const plate *other) {
    ccd_t ccd;
    CCD_INIT(&ccd);
    ccd.support1 = ccd.support2 = farthest;
    ccd.center1 = ccd.center2 = middle;
    ccd.max_iterations = 100;
    return ccdGJKIntersect(one, other, &ccd);
}

/* whether the polygons intersect if the other one is moved a little, in coordinates 16 times as fine: two that only touch do so for some
 * such moves, and not for others */
static int intersect(const plate *one, const plate *other, int64_t dx, int64_t dy) {
    hull_point these[8], those[8];
    for (size_t i = 0; i < one->count; i++) {
        these[i].x = 16 * (one->vertices[i].x + one->x), these[i].y = 16 * (one->vertices[i].y + one->y);
    }
    for (size_t i = 0; i < other->count; i++) {
        those[i].x = 16 * (other->vertices[i].x + other->x) + dx, those[i].y = 16 * (other->vertices[i].y + other->y) + dy;
    }
    return hull_polygon_intersects(these, one->count, those, other->count).number == 1;
}

int main(void) {
    static const hull_point shape[] = {{-6, 0}, {-2, -5}, {5, -4}, {7, 2}, {1, 6}};
    static const hull_point tool[] = {{-3, 0}, {1, -3}, {4, 1}};
    const plate fixed = {shape, 5, 0, 0, 0};
    int same = 0, other = 0, touching = 0;
    for (int64_t i = 0; i < 33 * 33; i++) {
        const plate translated = {tool, 3, i % 33 - 16, i / 33 - 16, 0.5};
        int intersecting = 0;
        for (int64_t k = 0; k < 9; k++) {
            intersecting += intersect(&fixed, &translated, k % 3 - 1, k / 3 - 1);
        }
        if (intersecting > 0 && intersecting < 9) {
            touching++;
        } else if (collide(&fixed, &translated) == (intersecting == 9)) {
            same++;
        } else {
            other++;
        }
    }
    printf("%d places of the tool: GJK and the exact answer are the same at %d, and at %d they are not\n", same + other, same, other);
    printf("%d more where the two barely touch or barely do not, which doubles need not tell\n", touching);
    return other != 0;
}
