/* Calls of mf_compute for the tests (calls.py): reads them from standard input, and writes what comes back and all that
 * each call leaves in what it is lent. A call is nine words (the numbers of floats and of ids, unit, edition, clip,
 * defect, and the lengths of work, raster and surfaces), then the floats, then the ids, as the machine has them. */
#include <mowfrost.h>

#include <stdio.h>
#include <stdlib.h>
#include <string.h>

/* Every byte that is lent has this before the call. */
#define NOISE 0xa5

enum { FLOATS, IDS, UNIT, EDITION, CLIP, DEFECT, WORK, RASTER, SURFACES, WORDS };

/* So many bytes, and never NULL. */
static void *bytes(size_t length)
{
    void *found = malloc(length + 1);
    if (found == NULL)
        exit(2);
    memset(found, NOISE, length + 1);
    return found;
}

/* So many bytes of standard input. */
static void *given(size_t length)
{
    void *found = bytes(length);
    if (fread(found, 1, length, stdin) != length)
        exit(2);
    return found;
}

static void put(const void *from, size_t length)
{
    if (fwrite(from, 1, length, stdout) != length)
        exit(2);
}

static void answer_one(const uint32_t *call)
{
    float *vertices = given(4 * (size_t)call[FLOATS]), *surfaces = bytes(4 * (size_t)call[SURFACES]), unit;
    uint32_t *ids = given(4 * (size_t)call[IDS]), *work = bytes(4 * (size_t)call[WORK]), record[MF_RECORD_WORDS];
    uint8_t *raster = bytes(call[RASTER]);
    memcpy(&unit, &call[UNIT], sizeof unit);
    memset(record, NOISE, sizeof record);
    uint32_t answer = mf_compute(vertices, call[FLOATS], ids, call[IDS], unit, call[EDITION], call[CLIP], call[DEFECT],
                                 work, call[WORK], raster, call[RASTER], surfaces, call[SURFACES], record);
    put(&answer, sizeof answer);
    put(record, sizeof record);
    put(work, 4 * (size_t)call[WORK]);
    put(raster, call[RASTER]);
    put(surfaces, 4 * (size_t)call[SURFACES]);
    free(vertices);
    free(ids);
    free(work);
    free(raster);
    free(surfaces);
}

int main(void)
{
    uint32_t call[WORDS];
    while (fread(call, sizeof call, 1, stdin) == 1)
        answer_one(call);
    return 0;
}
