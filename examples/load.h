/* A file of a folder, as the examples read it. */
#include <stdint.h>
#include <stdio.h>

enum { LONGEST = 65537 }; /* one byte more than a file may have, so that a longer one is seen */

static inline size_t load(const char *folder, const char *name, uint8_t *to)
{
    char path[4096];
    snprintf(path, sizeof path, "%s/%s", folder, name);
    FILE *file = fopen(path, "rb");
    if (file == NULL) return 0; /* a file that can't be opened counts as empty */
    size_t n = fread(to, 1, LONGEST, file);
    fclose(file);
    return n;
}
