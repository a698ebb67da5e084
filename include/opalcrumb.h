/* Opalcrumb from C: the cells of a tetrahedral mesh.
 *
 * Link with libopalcrumb.a (written by `tools/build library`, for x86-64). The library keeps
 * nothing between calls, asks for no memory, calls nothing of the system and may be used from any
 * number of threads. Each function answers 0, or the number of the refusal that applies.
 *
 * Every pointer must be good for the entries that its function names; where a length is 0, the
 * pointer may be NULL. Places lent to one call must not overlap. A call takes up to 1 MiB of stack.
 */
#ifndef OPALCRUMB_H
#define OPALCRUMB_H

#if defined(__has_include)
#if !__has_include(<stdint.h>)
#define OPALCRUMB_OWN_TYPES
#endif
#endif
#ifdef OPALCRUMB_OWN_TYPES /* a compiler without headers, as that of the kit */
typedef __UINT8_TYPE__ uint8_t;
typedef __UINT16_TYPE__ uint16_t;
typedef __UINT32_TYPE__ uint32_t;
typedef __INT32_TYPE__ int32_t;
typedef __INT64_TYPE__ int64_t;
typedef __SIZE_TYPE__ size_t;
#else
#include <stddef.h>
#include <stdint.h>
#endif

#ifdef __cplusplus
extern "C" {
#endif

/* Sizes, counted in entries of 16 bits unless said otherwise. */
enum {
    OPALCRUMB_LONGEST_FILE = 26648, /* bytes of the longest file that can be accepted */
    OPALCRUMB_TABLE = 25089,        /* a neighbour table of this size suffices for every mesh */
    OPALCRUMB_RECORD = 35,          /* one cell: kind, 8 corners, count, 25 tetrahedra */
    OPALCRUMB_UNUSED = 65535        /* stands in every place of a record that is not used */
};

/* Is this a mesh? 0, or the first of the refusals 1 to 9 that the file deserves. */
uint32_t opalcrumb_check(const uint8_t *file, size_t file_len);

/* The mesh file of lists: coordinates, three a vertex; vertex numbers, four a tetrahedron; parts, one
 * a tetrahedron. It is written to the front of room, *written is its length, and what lies behind it
 * in the room stays as it was. OPALCRUMB_LONGEST_FILE bytes are room enough for every file.
 *
 * 14 where the coordinates are not in threes, the numbers not in fours or the parts not one for each
 * four; then what opalcrumb_check answers to the file that the lists make, so 1 where it would be too
 * long; then 15 where the room is shorter than the file. On a refusal nothing at all is written. */
uint32_t opalcrumb_write(const int32_t *coordinates, size_t coordinates_len, const uint16_t *numbers,
                         size_t numbers_len, const uint16_t *parts, size_t parts_len, uint8_t *room,
                         size_t room_len, size_t *written);

/* The box product of four points, that is the determinant of q - p, r - p, s - p: above 0 where
 * p q r s is a tetrahedron the right way round, 0 where the points lie in a plane. It is exact.
 * 4 where a coordinate is below -50,000 or above 50,000; *box is then as it was. */
uint32_t opalcrumb_box(const int32_t p[3], const int32_t q[3], const int32_t r[3], const int32_t s[3],
                       int64_t *box);

/* The one tuple that stands for a cell, out of all the tuples that turning gives it. kind is 8
 * (hexahedron), 6 (prism) or 5 (pyramid); places beyond the kind's corners are not read for
 * anything, and come back as 0. 13 for another kind or for two equal corners; least is then as
 * it was. */
uint32_t opalcrumb_least_form(uint16_t kind, const uint16_t corners[8], uint16_t least[8]);

/* Why is this not a cell? kind and corners are as above. 0 and the ten entries of answer:
 *
 * answer[0] 0   a cell in least form; answer[1] to answer[8] are its corners
 *           7   a cell, turned; answer[1] to answer[8] are its least form, which the list has
 *           1   answer[1] is the place (0 for a) of the first corner that is no vertex of the mesh or
 *               equals an earlier one
 *           2   answer[1] is the row of the first edge that no tetrahedron has
 *           3   answer[1] is the row of the first face that is no facet, or is not split into two
 *           4   answer[1] is the row of the first corner whose box is not above 0
 *           5   answer[1] is 0 and answer[2] the row of the first face that its tetrahedra do not close;
 *               or answer[1] is 1 and answer[2] to answer[4] are the vertices, rising, of the least
 *               other triple that is a facet of neither none nor two of them
 *           6   its tetrahedra have more than one part number
 *
 * Rows count from 0 in the tables of docs/SCOPE.md, faces through the triangles and then through the
 * quadrilaterals. All other entries are 0. 1 to 9 for the file, then 16 for another kind; answer is
 * then as it was. */
uint32_t opalcrumb_why(const uint8_t *file, size_t file_len, uint16_t kind, const uint16_t corners[8],
                       uint16_t answer[10]);

/* The next cells after a mark, as many as there is room for.
 *
 * mark      kind and corners a to h. Begin with 65535 and anything after it. It comes back as the
 *           last cell written, ready for the next call, or as nine zeros once no cell is left.
 * table     room for the mesh's neighbour table, filled on 0 and on 12.
 * records   room for whole records of 35 entries, written from the start. What does not take a
 *           whole record is not touched.
 * count     how many records were written; 32 bits suffice for every room below 280 GiB.
 * end       1 where no cell is left after them, else 0.
 *
 * 1 to 9 for the file, 10 where the table is too short, 11 where there is no room for one record:
 * nothing at all is written then. 12 is met at a cell of more than 25 tetrahedra: the records
 * before it stand, *count tells how many, and the mark and *end are as they were. */
uint32_t opalcrumb_portion(const uint8_t *file, size_t file_len, uint16_t mark[9], uint16_t *table,
                           size_t table_len, uint16_t *records, size_t records_len, uint32_t *count,
                           uint32_t *end);

#ifdef __cplusplus
}
#endif
#endif
