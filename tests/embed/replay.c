/* Makes the calls of random_calls.py on a hull of hull.h and on its polygon: replay FILE. Prints how many were made. */
#include "hull.h"
#include <stdio.h>
#include <stdlib.h>
#include <string.h>

static const char *const words[] = {"", "add", "remove", "place", "tangents", "extreme", "vertices", "area", "", "multiplicity"};

/* writes what a reply says, in the words of the file */
static void write_reply(hull_reply r, uint32_t kind, char *out) {
    const char *const places[] = {"inside", "on", "outside"};
    *out = 0;
    switch (r.code) {
    case HULL_ADDED: sprintf(out, " 1"); break;
    case HULL_TOO_MANY: case HULL_REMOVED: sprintf(out, " 0"); break;
    case HULL_ABSENT: sprintf(out, " -1"); break;
    case HULL_AGAIN: case HULL_LEFT: sprintf(out, " %llu", (unsigned long long)r.number); break;
    case HULL_INSIDE: case HULL_ON: case HULL_OUTSIDE: sprintf(out, " %s", places[r.code - HULL_INSIDE]); break;
    case HULL_POINT: sprintf(out, " %lld %lld", (long long)r.x, (long long)r.y); break;
    case HULL_TANGENTS:
        sprintf(out, " %lld %lld %lld %lld", (long long)r.x, (long long)r.y, (long long)r.other_x, (long long)r.other_y);
        break;
    case HULL_NUMBER: {
        char digits[64];
        int at = 63;
        unsigned __int128 number = (unsigned __int128)r.high << 64 | r.number;
        digits[at] = 0;
        do {
            digits[--at] = (char)('0' + (int)(number % 10));
            number /= 10;
        } while (number > 0);
        sprintf(out, " %s", digits + at);
        break;
    }
    case HULL_EMPTY: case HULL_NO_TANGENT: break;
    default: sprintf(out, " kind %u code %u", kind, r.code);
    }
}

static int is_right(hull_set *h, uint32_t kind, int64_t x, int64_t y, const char *wanted) {
    static char text[4096];
    static hull_point vertices[64];
    size_t count = (size_t)hull_vertices(h, vertices, 64).number;
    if (kind == HULL_KIND_VERTICES) {
        text[0] = 0;
        for (size_t i = 0, at = 0; i < count; i++) {
            at += (size_t)sprintf(text + at, " %lld %lld", (long long)vertices[i].x, (long long)vertices[i].y);
        }
        return strcmp(text, wanted) == 0;
    }
    hull_reply of_polygon = hull_polygon_call(vertices, count, kind, x, y);
    write_reply(hull_call(h, kind, x, y), kind, text);
    if (strcmp(text, wanted) != 0) {
        return 0;
    }
    write_reply(of_polygon, kind, text);
    return of_polygon.code == HULL_UNKNOWN_KIND || strcmp(text, wanted) == 0;
}

int main(int count, char **file) {
    static char line[4096];
    FILE *calls = count == 2 ? fopen(file[1], "r") : NULL;
    hull_set *h = hull_new(40);
    long made = 0;
    while (calls != NULL && fgets(line, sizeof line, calls) != NULL) {
        char word[16];
        long long x, y;
        int length = 0;
        uint32_t kind = 9;
        line[strcspn(line, "\n")] = 0;
        if (sscanf(line, "%15s %lld %lld%n", word, &x, &y, &length) != 3) {
            return 2;
        }
        if (strcmp(word, "move") == 0) {
            hull_clear(h);
            continue;
        }
        while (kind > 0 && strcmp(word, words[kind]) != 0) {
            kind--;
        }
        if (!is_right(h, kind, x, y, line + length)) {
            printf("wrong: %s\n", line);
            return 1;
        }
        made++;
    }
    hull_free(h);
    printf("%ld calls\n", made);
    return made == 0 || fclose(calls) != 0;
}
