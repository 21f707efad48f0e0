/* One id of a mesh file corrected from C: ./correct_c FILE POSITION ID OUT writes FILE to OUT with ID at POSITION, which
 * counts from 0 over all ids. What everything means stands in include/mowfrost.h; how this is compiled and run, in
 * examples/README.md. */
#include <mowfrost.h>

#include <stdio.h>

#define LONGEST MF_MESH_BYTES(MF_MESH_MOST, MF_MESH_MOST)

/* One byte more than the longest file has: with that a file that is too long is told from one that is not. */
static uint8_t bytes[LONGEST + 1];

/* What is lent: enough for the largest file. The library allocates nothing. */
static uint32_t vertices[MF_MESH_MOST];
static uint32_t ids[MF_MESH_MOST];
static uint32_t counts[5];

/* What counts has after reading. */
enum { FLOATS, IDS, UNIT, CLIP, DEFECT };

/* A whole number in decimal digits, and nothing else. */
static int whole(const char *text, uint32_t *number)
{
    uint64_t sum = 0;
    if (*text == '\0')
        return 0;
    for (; *text != '\0'; text++) {
        if (*text < '0' || *text > '9')
            return 0;
        sum = 10 * sum + (uint64_t)(*text - '0');
        if (sum > UINT32_MAX)
            return 0;
    }
    *number = (uint32_t)sum;
    return 1;
}

/* The whole file goes to bytes, and from there to vertices, ids and counts; status 1 where it does not. */
static int read_file(const char *name)
{
    FILE *file = fopen(name, "rb");
    if (file == NULL) {
        perror(name);
        return 1;
    }
    size_t length = fread(bytes, 1, sizeof bytes, file);
    int failed = ferror(file);
    fclose(file);
    if (failed) {
        printf("%s: could not be read\n", name);
        return 1;
    }
    uint32_t answer = mf_read_mesh(bytes, length, vertices, MF_MESH_MOST, ids, MF_MESH_MOST, counts);
    if (answer >= MF_REFUSED) {
        printf("%s: refused %u\n", name, (unsigned)(answer - MF_REFUSED));
        return 1;
    }
    return 0;
}

/* And back: unit, floats and flags as they were read, to the bit. The length, or 0 where it is not written. */
static uint32_t write_file(const char *name)
{
    uint32_t length = mf_write_mesh(counts[UNIT], vertices, counts[FLOATS], ids, counts[IDS], counts[CLIP],
                                    counts[DEFECT], bytes, sizeof bytes);
    if (length >= MF_REFUSED) {
        printf("%s: refused %u\n", name, (unsigned)(length - MF_REFUSED));
        return 0;
    }
    FILE *file = fopen(name, "wb");
    if (file == NULL) {
        perror(name);
        return 0;
    }
    size_t written = fwrite(bytes, 1, length, file);
    if (fclose(file) != 0 || written != length) {
        printf("%s: could not be written\n", name);
        return 0;
    }
    return length;
}

int main(int count, char **words)
{
    uint32_t position, id;
    if (count != 5 || !whole(words[2], &position) || !whole(words[3], &id)) {
        fprintf(stderr, "usage: correct_c FILE POSITION ID OUT\n");
        return 2;
    }
    if (read_file(words[1]) != 0)
        return 1;
    if (position >= counts[IDS]) {
        printf("%s: there is no id %u: there are %u, from 0 on\n", words[1], (unsigned)position, (unsigned)counts[IDS]);
        return 1;
    }
    uint32_t old = ids[position];
    ids[position] = id;
    uint32_t length = write_file(words[4]);
    if (length == 0)
        return 1;
    printf("%s: id %u was %u, and is %u in %s, %u bytes\n", words[1], (unsigned)position, (unsigned)old, (unsigned)id,
           words[4], (unsigned)length);
    if (id >= counts[FLOATS] / 3)
        printf("%s: %u names no vertex, there are %u\n", words[4], (unsigned)id, (unsigned)(counts[FLOATS] / 3));
    return 0;
}
