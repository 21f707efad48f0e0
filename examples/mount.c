/* The takeoff of binary STL files from C, each of up to 10,922 triangles in millimetres: ./mount_c FILE .. What everything
 * means stands in include/mowfrost.h; how this is compiled and run, in examples/README.md. */
#include <mowfrost.h>

#include <stdio.h>
#include <string.h>

#define TRIANGLES MF_STL_LARGE_MOST
#define LONGEST (84 + 50 * TRIANGLES)
#define FLOATS (9 * TRIANGLES)
#define IDS (3 * TRIANGLES)

/* One byte more than the longest file has: with that a file that is too long is told from one that is not. */
static uint8_t bytes[LONGEST + 1];

/* What is lent: enough for the largest file. The library allocates nothing. */
static float vertices[FLOATS];
static uint32_t ids[IDS];
static uint32_t work[MF_WORK_WORDS(FLOATS, IDS)];
static uint8_t raster[MF_RASTER_BYTES];
static float surfaces[MF_SURFACE_FLOATS(IDS)];
static uint32_t record[MF_RECORD_WORDS];

/* The best volume: it comes as the bits of a float. */
static double best_volume(void)
{
    float value;
    memcpy(&value, &record[13], sizeof value);
    return value;
}

/* Reading and record are two calls: if the second refuses, the mesh that was read is still there. The record is made
 * under edition 1 of the slope rule, as takeoff makes it; nothing that is printed here hangs on that. */
static uint32_t take(size_t length, uint32_t *triangles)
{
    *triangles = mf_read_stl_large(bytes, length, vertices, FLOATS, ids, IDS);
    if (*triangles >= MF_REFUSED)
        return *triangles;
    return mf_compute(vertices, 9 * (size_t)*triangles, ids, 3 * (size_t)*triangles, 0.001f, 1, 0, 0, work,
                      sizeof work / sizeof work[0], raster, sizeof raster, surfaces,
                      sizeof surfaces / sizeof surfaces[0], record);
}

static int print_takeoff(const char *name)
{
    static const char *const qualities[] = {"closed", "open shell", "degenerate"};
    FILE *file = fopen(name, "rb");
    if (file == NULL) {
        perror(name);
        return 1;
    }
    size_t length = fread(bytes, 1, sizeof bytes, file);
    int failed = ferror(file);
    fclose(file);
    if (failed) {
        printf("%s: could not be read\n", name);
        return 1;
    }
    uint32_t triangles, answer = take(length, &triangles);
    if (answer >= MF_REFUSED) {
        printf("%s: refused %u\n", name, (unsigned)(answer - MF_REFUSED));
        return 1;
    }
    printf("%s: %u triangles, %s, best volume %g m3, %s\n", name, (unsigned)triangles, qualities[record[0]],
           best_volume(), record[1] ? "to be relied on" : "not to be relied on");
    return 0;
}

int main(int count, char **names)
{
    int status = 0;
    for (int at = 1; at < count; at++)
        status |= print_takeoff(names[at]);
    return status;
}
