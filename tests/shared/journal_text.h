/* The text of a journal file without its checksums. */
#include <string.h>

/* Removes the first line of a file with checksums and the lines of the checksums, in place; returns the text. */
static inline char *without_sums(char *text) {
    char *from = text, *to = text;
    while (*from != 0) {
        const char *newline = strchr(from, '\n');
        size_t length = newline == NULL ? strlen(from) : (size_t)(newline + 1 - from);
        if (strncmp(from, "hullbook file ", 14) != 0 && strncmp(from, "sum ", 4) != 0) {
            memmove(to, from, length);
            to += length;
        }
        from += length;
    }
    *to = 0;
    return text;
}
