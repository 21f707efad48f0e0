/* The areas by slope of mesh files from C, under an edition of the slope rule: ./slopes_c [--edition N] FILE .. takes
 * edition 1, as takeoff does, unless another is named. What everything means stands in include/mowfrost.h; how this is
 * compiled and run, in examples/README.md. */
#include <mowfrost.h>

#include <stdio.h>
#include <stdlib.h>
#include <string.h>

#define LONGEST MF_MESH_BYTES(MF_MESH_MOST, MF_MESH_MOST)
#define LENGTH(array) (sizeof(array) / sizeof((array)[0]))

/* One byte more than the longest file has: with that a file that is too long is told from one that is not. */
static uint8_t bytes[LONGEST + 1];

/* What is lent: enough for the largest file. The library allocates nothing. */
static uint32_t patterns[MF_MESH_MOST];
static float vertices[MF_MESH_MOST];
static uint32_t ids[MF_MESH_MOST];
static uint32_t counts[5];
static uint32_t work[MF_WORK_WORDS(MF_MESH_MOST, MF_MESH_MOST)];
static uint8_t raster[MF_RASTER_BYTES];
static float surfaces[MF_SURFACE_FLOATS(MF_MESH_MOST)];
static uint32_t record[MF_RECORD_WORDS];

/* What counts has after reading. */
enum { FLOATS, IDS, UNIT, CLIP, DEFECT };

/* A whole number in decimal digits, and nothing else. Which of them are editions the library says. */
static int whole(const char *text, uint32_t *number)
{
    char *end;
    unsigned long long value = strtoull(text, &end, 10);
    if (*text < '0' || *text > '9' || *end != '\0' || value > UINT32_MAX)
        return 0;
    *number = (uint32_t)value;
    return 1;
}

/* A number of the record: it comes as the bits of a float. */
static double number(int word)
{
    float value;
    memcpy(&value, &record[word], sizeof value);
    return value;
}

/* A file's record: unit and floats are read as bit patterns and handed on as floats, with the file's flags. */
static uint32_t take(size_t length, uint32_t edition)
{
    float unit;
    uint32_t answer = mf_read_mesh(bytes, length, patterns, LENGTH(patterns), ids, LENGTH(ids), counts);
    if (answer >= MF_REFUSED)
        return answer;
    memcpy(&unit, &counts[UNIT], sizeof unit);
    memcpy(vertices, patterns, counts[FLOATS] * sizeof vertices[0]);
    return mf_compute(vertices, counts[FLOATS], ids, counts[IDS], unit, edition, counts[CLIP], counts[DEFECT], work,
                      LENGTH(work), raster, LENGTH(raster), surfaces, LENGTH(surfaces), record);
}

static int print_slopes(const char *name, uint32_t edition)
{
    FILE *file = fopen(name, "rb");
    if (file == NULL) {
        perror(name);
        return 1;
    }
    size_t length = fread(bytes, 1, sizeof bytes, file);
    int failed = ferror(file);
    fclose(file);
    if (failed) {
        printf("%s: could not be read\n", name);
        return 1;
    }
    uint32_t answer = take(length, edition);
    if (answer >= MF_REFUSED) {
        printf("%s: refused %u\n", name, (unsigned)(answer - MF_REFUSED));
        return 1;
    }
    printf("%s, edition %u: top %.9g m2, bottom %.9g m2, side %.9g m2, inclined %.9g m2\n", name, (unsigned)edition,
           number(7), number(8), number(9), number(10));
    return 0;
}

int main(int count, char **words)
{
    uint32_t edition = 1;
    int at = 1, status = 0;
    if (count > 2 && strcmp(words[1], "--edition") == 0 && whole(words[2], &edition))
        at = 3;
    if (at >= count || strncmp(words[at], "--", 2) == 0) {
        fprintf(stderr, "usage: slopes_c [--edition N] FILE ..\n");
        return 2;
    }
    for (; at < count; at++)
        status |= print_slopes(words[at], edition);
    return status;
}
