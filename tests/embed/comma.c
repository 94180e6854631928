/* Well-known text has points where the locale has a decimal comma, or one of two bytes (U+066B). printf and strtod, by which its numbers are
 * written, have such a locale here, since not every system has one. The status is 0 only if it is so. */
#include <stdarg.h>
#include <stdio.h>
#include <stdlib.h>
#include <string.h>

static const char *decimal_point;

/* Writes as snprintf, with the locale's decimal point. */
static int local_snprintf(char *out, size_t size, const char *format, ...) {
    char text[64];
    va_list words;
    va_start(words, format);
    vsnprintf(text, sizeof text, format, words);
    va_end(words);
    char *point = strchr(text, '.');
    return point == NULL ? snprintf(out, size, "%s", text)
                         : snprintf(out, size, "%.*s%s%s", (int)(point - text), text, decimal_point, point + 1);
}

/* Reads as strtod, up to what is no number with the locale's decimal point. */
static double local_strtod(const char *text, char **end) {
    char copy[64] = "";
    const char *point = strstr(text, decimal_point);
    (void)end;
    if (point == NULL) {
        strncpy(copy, text, strcspn(text, "."));
    } else {
        snprintf(copy, sizeof copy, "%.*s.%s", (int)(point - text), text, point + strlen(decimal_point));
    }
    return strtod(copy, NULL);
}

#define snprintf local_snprintf
#define strtod local_strtod
#include "hull_exchange.h"

int main(void) {
    static const char *points[] = {".", ",", "\xd9\xab"};
    static const hull_point vertices[] = {{1, -3}, {HULL_COORDINATE_MAX, 123456789}, {0, 8}};
    static const char wanted[] = "POLYGON ((2.2737367544323206e-13 -6.821210263296962e-13, 0.25 2.8070823873349582e-05, 0 1.8189894035458565e-12, "
                                 "2.2737367544323206e-13 -6.821210263296962e-13))";
    int is_right = 1;
    for (size_t k = 0; k < sizeof points / sizeof *points; k++) {
        char text[256], number[32];
        decimal_point = points[k];
        const size_t length = hull_wkt(vertices, 3, 42, text, sizeof text);
        const int is_same = length == strlen(wanted) && strcmp(text, wanted) == 0;
        if (!is_same || hull_number_text(-5, 1, number) != 4 || strcmp(number, "-2.5") != 0) {
            fprintf(stderr, "with the decimal point '%s': %s\n", decimal_point, text);
            is_right = 0;
        }
    }
    return !is_right;
}
