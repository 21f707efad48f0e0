/* The takeoff of a cube from C: its record in words, what is left out where ids are wrong and how much of its footprints
 * then rests on edges, and how each sort of bad input is refused. What everything means stands in include/mowfrost.h; how
 * this is compiled and run, in examples/README.md. */
#include <mowfrost.h>

#include <math.h>
#include <stdio.h>
#include <string.h>

#define LENGTH(array) (sizeof(array) / sizeof((array)[0]))

/* A cube of side 2, in metres: x, y, z of each corner, and two triangles a side, seen anticlockwise from outside. */
static const float vertices[] = {0, 0, 0, 2, 0, 0, 0, 2, 0, 2, 2, 0, 0, 0, 2, 2, 0, 2, 0, 2, 2, 2, 2, 2};
static const uint32_t ids[] = {0, 2, 3, 0, 3, 1, 4, 5, 7, 4, 7, 6, 0, 1, 5, 0, 5, 4,
                               2, 6, 7, 2, 7, 3, 0, 4, 6, 0, 6, 2, 1, 3, 7, 1, 7, 5};

/* What is lent: just as much as the cube asks for. The library allocates nothing. */
static uint32_t work[MF_WORK_WORDS(LENGTH(vertices), LENGTH(ids))];
static uint8_t raster[MF_RASTER_BYTES];
static float surfaces[MF_SURFACE_FLOATS(LENGTH(ids))];
static uint32_t record[MF_RECORD_WORDS];

/* More ids than a call may have, for refusal 1. */
static uint32_t too_many[MF_MOST + 1];

/* The call, by what differs below: the floats, the ids, the unit, the edition of the slope rule, the clip, and how many
 * work words are lent. */
static uint32_t ask(const float *floats, const uint32_t *list, size_t list_len, float unit, uint32_t edition,
                    uint32_t clip, size_t work_len)
{
    return mf_compute(floats, LENGTH(vertices), list, list_len, unit, edition, clip, 0, work, work_len, raster,
                      LENGTH(raster), surfaces, LENGTH(surfaces), record);
}

/* A number of the record: it comes as the bits of a float. */
static double number(int word)
{
    float value;
    memcpy(&value, &record[word], sizeof value);
    return value;
}

static void print_record(void)
{
    static const char *const qualities[] = {"closed", "open shell", "degenerate"};
    static const char *const methods[] = {"mesh", "mesh_open", "prism_fallback", "mesh_unclipped",
                                          "mesh_profile_invalid"};
    printf("%s, best volume %g m3 by %s, %s\n", qualities[record[0]], number(13), methods[record[2]],
           record[1] ? "to be relied on" : "not to be relied on");
    printf("volume %g m3, box %g m3, surface %g m2\n", number(4), number(5), number(6));
    printf("top %g m2, bottom %g m2, side %g m2, inclined %g m2\n", number(7), number(8), number(9), number(10));
    if (record[14])
        printf("prism bound %g m3\n", number(15));
    else
        printf("prism bound not computed\n");
    printf("%u surfaces:\n", (unsigned)record[16]);
    for (const float *row = surfaces; row < surfaces + 4 * record[16]; row += 4)
        printf("  %g m2 facing %g %g %g\n", row[0], row[1], row[2], row[3]);
}

/* What was left out and why; nothing where nothing was. */
static void print_left_out(const char *what)
{
    unsigned used = record[17], out_of_range = record[18], slivers = record[19];
    if (out_of_range + slivers > 0)
        printf("%s: %u of %u triangles left out: out of range %u, slivers %u\n", what, out_of_range + slivers,
               used + out_of_range + slivers, out_of_range, slivers);
}

/* The footprints of an open shell; nothing of any other. */
static void print_cells(const char *what)
{
    if (record[0] == 1)
        printf("%s: cells covered, on a rim: along z %u, %u; along y %u, %u; along x %u, %u\n", what,
               (unsigned)record[20], (unsigned)record[21], (unsigned)record[22], (unsigned)record[23],
               (unsigned)record[24], (unsigned)record[25]);
}

/* An answer in words. A refusal leaves the record, which held 77 in every word, as it was. */
static void print_answer(const char *what, uint32_t answer)
{
    int kept = 1;
    for (int word = 0; word < MF_RECORD_WORDS; word++)
        kept = kept && record[word] == 77;
    if (answer >= MF_REFUSED)
        printf("%s: refused %u, the record is %s\n", what, (unsigned)(answer - MF_REFUSED),
               kept ? "as it was" : "another");
    else
        printf("%s: taken\n", what);
}

int main(void)
{
    /* A unit of 1 metre, edition 1, no clip left out, no defect. All sides of a cube are level or upright, so that its record
     * is the same under edition 2. */
    uint32_t answer = ask(vertices, ids, LENGTH(ids), 1.0f, 1, 0, LENGTH(work));
    if (answer != 0) {
        printf("the cube was refused %u\n", (unsigned)(answer - MF_REFUSED));
        return 1;
    }
    print_record();
    print_left_out("the cube");
    print_cells("the cube");
    printf("pieces: %u\n", (unsigned)mf_pieces(ids, LENGTH(ids), work, LENGTH(work)));

    /* The last id of the first triangle names no vertex: there are eight. And the second triangle has no area. */
    uint32_t wrong[LENGTH(ids)];
    memcpy(wrong, ids, sizeof wrong);
    wrong[2] = 8;
    wrong[4] = wrong[3];
    if (ask(vertices, wrong, LENGTH(wrong), 1.0f, 1, 0, LENGTH(work)) == 0) {
        print_left_out("the cube with two wrong ids");
        print_cells("the cube with two wrong ids");
    }

    float spoilt[LENGTH(vertices)];
    memcpy(spoilt, vertices, sizeof spoilt);
    spoilt[7] = NAN;
    for (int word = 0; word < MF_RECORD_WORDS; word++)
        record[word] = 77;
    print_answer("98,305 ids", ask(vertices, too_many, LENGTH(too_many), 1.0f, 1, 0, LENGTH(work)));
    print_answer("a unit of 17", ask(vertices, ids, LENGTH(ids), 17.0f, 1, 0, LENGTH(work)));
    print_answer("a work word short", ask(vertices, ids, LENGTH(ids), 1.0f, 1, 0, LENGTH(work) - 1));
    print_answer("a coordinate that is no number", ask(spoilt, ids, LENGTH(ids), 1.0f, 1, 0, LENGTH(work)));
    print_answer("a clip of 2", ask(vertices, ids, LENGTH(ids), 1.0f, 1, 2, LENGTH(work)));
    print_answer("an edition of 3", ask(vertices, ids, LENGTH(ids), 1.0f, 3, 0, LENGTH(work)));
    return 0;
}
