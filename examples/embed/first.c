#include "hull.h"
#include <stdio.h>
int main(void) {
    hull_set *h = hull_new(100);
    if (h == NULL) return 1;
    for (int i = 0; i < 4; i++) hull_add(h, 10 * (i & 1), 10 * (i >> 1));
    printf("(5, 5) is inside: %d; twice the area: %d\n", hull_place(h, 5, 5).code == HULL_INSIDE, (int)hull_area(h).number);
    hull_free(h);
    return 0;
}
