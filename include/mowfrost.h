/* Mowfrost from C: every function that the static library exports, and what it promises.
 *
 * The library is proved and made by `tools/staticlib capi`: target/staticlib/libcapi.a, for x86-64 Linux. It needs nothing
 * but memset. examples/takeoff.c, mount.c, slopes.c and correct.c are programs over it. The contracts that are proved
 * stand in crates/capi/src, and docs/ARCHITECTURE.md leads from there to the definitions.
 *
 * What comes back. Every function answers every input, or gives the one refusal that applies, and ends. It allocates
 * nothing and keeps nothing between two calls, so that calls which are lent different memory may run at the same time.
 *
 * Slices. An array is passed as a pointer and a length in elements. The pointer is aligned for its type and not NULL,
 * also where the length is 0: then nothing is read or written through it, and the address of any object of the type
 * will do. A slice behind a pointer to const is only read. One that may be written (work, raster, surfaces, record;
 * where a file is read vertices, ids and counts, where one is written bytes) overlaps nothing else that is passed; those
 * that are only read may overlap each other. All this, and that so many elements are there, is the caller's word: the
 * library cannot see it.
 *
 * Lent areas. What they hold before a call changes no answer. A refusal leaves them all as they were. An area may be
 * longer than is asked for, and what lies behind is left as it was. Of a float that has to stay it is proved that it
 * keeps its value. The proofs know one NaN: that a NaN there stays one is proved, that it keeps its sign and its digits
 * is not; it is tested (oracle/src/compute/nans.rs and, where an STL is read, oracle/src/stl).
 *
 * Floats. The processor is as it is when a C program starts: rounding to nearest, subnormal numbers kept, no traps. */
#ifndef MOWFROST_H
#define MOWFROST_H

#include <stddef.h>
#include <stdint.h>

#ifdef __cplusplus
extern "C" {
#endif

/* A refusal n comes back as MF_REFUSED + n. No answer is as large.
 *   1  more than MF_MOST ids, or more than MF_MOST vertex floats
 *   2  the unit is not a number from 2^-20 to 16
 *   3  an area is too short
 *   4  a vertex float is not finite, or above 8,589,934,592 (2^33) in magnitude
 *   5  a flag has a value that it cannot have, or the bytes are no binary STL, or no mesh file
 *   6  an STL has more triangles than are taken, or a mesh file more floats or ids
 *   7  the edition of the slope rule is neither 1 nor 2 */
#define MF_REFUSED 0x80000000u
#define MF_MOST 98304u

/* ---- ids
 *
 * ids are three a triangle; one or two left over are no triangle. Any value may occur. Refusals, tried in this order:
 * 1 by ids_len, 3. An answer leaves 0 in the words that are asked for, used or not. */

/* Bit 0: boundary-free, that is, some edge is there, and each is used as often one way as the other. Bit 1:
 * over-incident, some edge is used more than twice. A triangle that repeats an id does not count. Both bits are 0
 * where ids_len is below 9 or no multiple of 3. Asks for 4 * ids_len words. */
uint32_t mf_edge_chain(const uint32_t *ids, size_t ids_len, uint32_t *work, size_t work_len);

/* 2 * m + z. Triangles on the same three ids are one face, counted +1 or -1 by the way round; a triangle that repeats
 * an id does not count. m is the largest magnitude of a face's sum, 0 without faces; z is 1 where every sum is 0, else
 * 0. Asks for 4 * (ids_len / 3) words. */
uint32_t mf_face_net(const uint32_t *ids, size_t ids_len, uint32_t *work, size_t work_len);

/* 1 where each edge between two different ids is used twice, once each way, also where there is none; else 0, and 0
 * where ids_len is below 9 or no multiple of 3. Asks for 4 * ids_len words. */
uint32_t mf_is_closed_manifold(const uint32_t *ids, size_t ids_len, uint32_t *work, size_t work_len);

/* 1 where there is an edge between two different ids, and at most one in fifty is used neither once nor twice, once
 * each way; else 0, and 0 where ids_len is below 9 or no multiple of 3. Asks for 4 * ids_len words. */
uint32_t mf_winding_coherent(const uint32_t *ids, size_t ids_len, uint32_t *work, size_t work_len);

/* The number of pieces: groups of triangles, joined wherever two share an edge, whichever way each walks it. With one id
 * in common and no edge they are not joined, so two solids that touch at a corner are two pieces; an edge joins all that
 * use it. A triangle that repeats an id does not count and joins nothing. Asks for ids_len / 3 words. */
uint32_t mf_pieces(const uint32_t *ids, size_t ids_len, uint32_t *work, size_t work_len);

/* ---- the record
 *
 * vertices are x, y, z of vertex 0, then of vertex 1, ..; ids as above, each the number of a vertex. unit is metres a
 * model unit. edition is that of the slope rule below, 1 or 2. clip is 1 where a clip was not applied, else 0. defect is
 * 0, or why the profile is invalid: 1 self_intersecting, 2 degenerate, 3 hole_outside, 4 overlapping.
 *
 * Refusals, tried in this order: 5; 1; then, unless there are fewer than 3 ids or 9 vertex floats, 2, 7, 3, 4. A refusal
 * leaves the record too as it was. Else 0 comes back, and the record has these words. Volumes, in cubic metres, and
 * areas, in square metres, are the bits of a float.
 *
 *    0  quality: 0 closed, 1 open_shell, 2 degenerate
 *    1  1 where the best volume is to be relied on, else 0
 *    2  method, which volume the best one is: 0 mesh, 1 mesh_open, 2 prism_fallback, 3 mesh_unclipped,
 *       4 mesh_profile_invalid
 *    3  profile: the defect as it was passed
 *    4  the volume of the mesh, with its sign
 *    5  the volume of its box
 *    6  the area of all triangles used, and by slope: 7 top, 8 bottom, 9 side, 10 inclined
 *   11  the area of the largest surface
 *   12  of the smallest above 1e-6, 0 if there is none
 *   13  the best volume
 *   14  1 where the prism bound was computed, else 0
 *   15  the prism bound, 0 where it was not computed
 *   16  surfaces: the number of rows in the surface area
 *   17  used: the number of triangles that sums and surfaces are made of. The others are left out:
 *   18  out of range: the number of those with an id that names no vertex, where 3 * id + 2 is vertices_len or more
 *   19  slivers: the number of those with all ids in range and next to no area: in model units, and in f64, the cross
 *       product of two sides is shorter than 1e-12
 *
 * Words 17 to 19 add up to ids_len / 3, with 3 ids and 9 vertex floats or more. The flags change none of them.
 *
 * The slope rule decides which of words 7 to 10 a triangle's area goes to, by the z of its unit normal in f32: above the
 * edition's first number it is top, below its negative bottom, with a magnitude under the second side, else inclined.
 * Just on a number it is inclined. The numbers are the f32 nearest to these:
 *
 *   edition 1  0.940 and 0.342: within 19.95 degrees of level, 20.00 of upright. Old contracts keep it
 *   edition 2  0.866 and 0.5: within 30.00 degrees of level, 30.00 of upright. The rule of 2027, for new contracts
 *
 * What is top, bottom or side under edition 1 is the same under 2: only what is inclined can move. So under 2 word 10 is
 * no greater than under 1, and words 7 to 9 are no less. All other words and the rows are the same under both.
 *
 * Beside the record stand the cells of the three footprints that the prism bound of an open shell is made of; where the
 * mesh is closed or degenerate all six are 0. A footprint is a raster of up to 256 by 256 cells over the box, seen along
 * an axis. A triangle counts where its ids are in range and its doubled area, seen so, is not under 1e-12 in f32; that is
 * another rule than that of words 17 to 19. A cell is covered where its centre is inside a triangle that counts or on an
 * edge of one, and a rim cell where it is covered and inside none. The three values of the point test decide, in f32 and
 * not by exact geometry: outside where they have both signs, else on an edge where one is zero, else inside.
 *
 *   20  along z (over x and y): covered cells   21  of them rim cells
 *   22  along y (over x and z): covered cells   23  of them rim cells
 *   24  along x (over y and z): covered cells   25  of them rim cells
 *
 * The flags change none of them, and the unit none while the mesh stays an open shell.
 *
 * With 3 ids and 9 vertex floats or more, areas of MF_WORK_WORDS, MF_RASTER_BYTES and MF_SURFACE_FLOATS elements are
 * asked for. A record leaves 0 in so many work words and raster bytes, and its rows at the front of the surface area,
 * four floats each: area, nx, ny, nz, by falling area, then by rising nx, ny, nz. With fewer ids or floats no area is
 * asked for and none is touched, whatever unit and edition: words 0 and 2 are 2, word 3 is the defect, word 14 is 1, all
 * others are 0. */
#define MF_RECORD_WORDS 26
#define MF_RASTER_BYTES 65536u
#define MF_WORK_WORDS(vertices_len, ids_len) (5 * (ids_len) + 4 * ((ids_len) / 3) + 8 * ((vertices_len) / 3))
#define MF_SURFACE_FLOATS(ids_len) (4 * ((ids_len) / 3))

uint32_t mf_compute(const float *vertices, size_t vertices_len, const uint32_t *ids, size_t ids_len, float unit,
                    uint32_t edition, uint32_t clip, uint32_t defect, uint32_t *work, size_t work_len, uint8_t *raster,
                    size_t raster_len, float *surfaces, size_t surfaces_len, uint32_t record[MF_RECORD_WORDS]);

/* ---- files
 *
 * Binary STL: 80 bytes of header, a count, then 50 bytes a triangle: its normal (12), its three corners (36), two
 * attribute bytes; all little-endian. Answers the number of triangles. vertices then begins with their corners, nine
 * floats a triangle in the file's order, and ids with 0, 1, 2, ..: triangle t has 3t, 3t + 1 and 3t + 2. Header, normals
 * and attributes are not looked at, so a file that begins with "solid" is read like any other. What lies behind 9 floats
 * and 3 ids a triangle is left as it was. A coordinate may be any float, also one that mf_compute refuses by 4; a NaN
 * comes as a NaN, whatever its sign and digits. An STL has no unit: mf_compute is told one, 0.001 where it is in
 * millimetres.
 *
 * Refusals, tried in this order: 5 for fewer than 84 bytes; 6 for a count above MF_STL_MOST, whatever the length; 5 for
 * a length other than 84 + 50 * count; 3 where vertices has fewer than 9 * count floats, or ids fewer than 3 * count. */
#define MF_STL_MOST 170u
#define MF_STL_LARGE_MOST 10922u

uint32_t mf_read_stl(const uint8_t *bytes, size_t bytes_len, float *vertices, size_t vertices_len, uint32_t *ids,
                     size_t ids_len);

/* The same with MF_STL_LARGE_MOST in the place of MF_STL_MOST: as many triangles as mf_compute takes so. */
uint32_t mf_read_stl_large(const uint8_t *bytes, size_t bytes_len, float *vertices, size_t vertices_len, uint32_t *ids,
                           size_t ids_len);

/* Mesh files, as takeoff reads them (docs/FORMAT.md): the unit, the vertex floats, the ids and the flags, a record each.
 * Unit and vertex floats come and go as their bit patterns, so that each keeps its bits, a NaN too: nothing is asked
 * of them. Any unit, float and id may occur, also what mf_compute refuses by 2 or 4, and one or two
 * floats or ids may be left over from threes. To pass them to mf_compute, copy the patterns into floats (memcpy). */
#define MF_MESH_MOST 1536u
#define MF_MESH_BYTES(vertices_len, ids_len) (30 + 4 * (vertices_len) + 4 * (ids_len))

/* Writes the file to the front of bytes, and answers its length, MF_MESH_BYTES(vertices_len, ids_len). Kind 4, the
 * flags, is always there. clip is 0 or 1, defect 0 to 4, as for mf_compute. What lies behind the file is left as it was.
 * Refusals, tried in this order: 5 for another flag value; 6 for more than MF_MESH_MOST floats or ids; 3 where bytes is
 * too short. */
uint32_t mf_write_mesh(uint32_t unit, const uint32_t *vertices, size_t vertices_len, const uint32_t *ids, size_t ids_len,
                       uint32_t clip, uint32_t defect, uint8_t *bytes, size_t bytes_len);

/* Reads a file, with kind 4 or without, and answers 0. vertices and ids then begin with what the file has,
 * and what lies behind is left as it was. counts has five words: the number of floats, the number of ids, the unit, clip
 * and defect; without kind 4 both flags are 0. Refusals, tried in this order: 5 or 6 as takeoff has them, for the
 * fault that is met first; 3 where vertices or ids is too short. A refusal leaves counts too as it was. */
uint32_t mf_read_mesh(const uint8_t *bytes, size_t bytes_len, uint32_t *vertices, size_t vertices_len, uint32_t *ids,
                      size_t ids_len, uint32_t counts[5]);

/* ---- float helpers
 *
 * On bit patterns: an f64 is a uint64_t, an f32 a uint32_t. Every pattern is answered. A result that is a NaN is
 * 7ff8000000000000 or 7fc00000, but for a magnitude: that is its argument without the sign bit, whatever it is. */

uint64_t mf_root64(uint64_t x); /* to nearest; of -0 it is -0, of a number below zero a NaN */
uint64_t mf_magnitude64(uint64_t x);
uint32_t mf_magnitude32(uint32_t x);
uint64_t mf_floor64(uint64_t x);
uint32_t mf_floor32(uint32_t x);
uint64_t mf_ceiling64(uint64_t x);
uint32_t mf_ceiling32(uint32_t x);
uint64_t mf_round64(uint64_t x); /* to a whole number, half away from zero */
uint32_t mf_round32(uint32_t x);
uint64_t mf_least64(uint64_t x, uint64_t y); /* of a NaN and a number the number; of equals, as 0 and -0, the first */
uint32_t mf_least32(uint32_t x, uint32_t y);
uint64_t mf_greatest64(uint64_t x, uint64_t y); /* likewise */
uint32_t mf_greatest32(uint32_t x, uint32_t y);
uint32_t mf_narrow(uint64_t x); /* f64 to f32, to nearest, ties to even */
int32_t mf_to_i32(uint32_t x);  /* of an f32: the fraction is dropped; out of range, the nearer end; a NaN gives 0 */
int64_t mf_to_i64(uint64_t x);  /* of an f64, likewise */
uint64_t mf_to_u64(uint32_t x); /* of an f32, likewise */

#ifdef __cplusplus
}
#endif

#endif
