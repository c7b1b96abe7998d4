/* The C interface of libmlca.a: refinement of hexahedral meshes by multilinear split and cell averaging (MLCA), with
   quads, segments and points as creases.

   This file says all that a caller needs. 'Rule 2.7' is the rule of that number in docs/SPECIFICATION.md, which says it
   in full. include/mlca_tables.h has the calls on tables with structs in the place of long rows of arguments, and lays
   tables out in lent memory; examples/tables.c and examples/viewer.c use both.

   THE MESH (rules 1.1 to 1.11). Five tables of numbers: vertices (3 coordinates each), hexes (8 corners each), quads
   (4), segments (2) and points (1). A coordinate is a whole number of units of 1/1024 mm, from -536,870,912 to
   536,870,911, which is 524 m either way. A corner is the number of a vertex, counted from 0.

   The corners of a quad go round it. The corners 0 1 2 3 of a hex go round its bottom; corner i + 4 is above corner i.

            7-----------6
           /|          /|
          / |         / |          3-----------2
         4-----------5  |          |           |
         |  |        |  |          |   quad    |          segment  0-------1
         |  3--------|--2          |           |
         | /   hex   | /           |           |          point    0
         |/          |/            0-----------1
         0-----------1

         edges  01 12 23 30  45 56 67 74  04 15 26 37     of a quad 01 12 23 30    of a segment 01
         faces  0123 4567 0154 1265 2376 3047             of a quad 0123

   Of a hex as drawn, the faces 4567 0154 1265 2376 3047 go round counter-clockwise seen from outside, 0123 clockwise; the
   kernel does not ask for it. A hex and its mirror image are both hexes, and cells may be flat or bent. So a wrong order of corners need not be
   found: a grid whose hexes are written row by row, in the order 0 1 3 2 4 5 7 6 of the drawing, is accepted, and each
   of its hexes has volume 0. (Beside quads that go round it gets refusal 7.) If yours come so, swap the 3rd number with
   the 4th and the 7th with the 8th.

   Cells meet where they name the same vertices: two edges are one if they have the same two corners, two faces if they
   have the same four. Coordinates are never compared. Any number of cells may meet at a vertex, an edge or a face.

   CREASES (rules 1.12, 3.1 to 3.3). The rank of a vertex is the lowest dimension of a cell that holds it: 0 if a point
   does, else 1 if a segment does, else 2 if a quad does, else 3. Its valence is how many cells of that dimension hold
   it. In a round, after the split, a vertex moves to the mean of the centroids of just these cells. So
       - hexes alone shrink: of a cube of side 8 the corner at (0,0,0) goes to (2,2,2);
       - quads on the whole outside, one for each face of the shell, let the surface follow the surface alone;
       - segments along the sharp edges of the shell keep these sharp;
       - points at its corners keep these where they are: a vertex that is a point never moves.
   To keep the shape of a solid list all of them: the whole shell, its sharp edges, its corners. A face of the shell is
   one that only one hex has, in holes too. An edge is sharp where its two faces of the shell turn, inward or outward, by
   more than the casting is meant to be rounded. A corner is where three sharp edges meet, where two turn, or where one
   ends. Where a face of the shell is missing, the hexes behind it draw the surface in. The block of examples/tables.c keeps its 8000 cubic mm
   through 2 rounds with all of them, and 2600 of them without any.

   A ROUND (rules 2.1 to 2.12, 3.4 to 3.7). Old vertices keep their numbers. Behind them comes a new one for each
   different edge, then for each different face, then for each hex, at the mean of its 2, 4 or 8 corners. Edges and
   faces are numbered in the order first met: all hexes in table order, each with its edges (faces) in the order above,
   then all quads, then all segments.

   A cell of n corners has n children of its kind, child i at its corner i: those of cell k are the cells n k to
   n k + n - 1. Corner j of child i is the vertex of the smallest part of the parent that holds its corners i and j: the
   corner itself if i = j, else an edge, a face, the whole. The parts of a hex are numbered 0 to 7 for its corners, 8 to
   19 for its edges, 20 to 25 for its faces, 26 for the hex; those of a quad 0 to 3, 4 to 7, 8; of a segment 0, 1, 2:

         child   of a hex                       of a quad       of a segment    of a point
           0      0  8 20 11 16 22 26 25         0  4  8  7      0  2            0
           1      8  1  9 20 22 17 23 26         4  1  5  8      2  1
           2     20  9  2 10 26 23 18 24         8  5  2  6
           3     11 20 10  3 25 26 24 19         7  8  6  3
           4     16 22 26 25  4 12 21 15
           5     22 17 23 26 12  5 13 21
           6     26 23 18 24 21 13  6 14
           7     25 26 24 19 15 21 14  7

   Then each vertex, old and new, moves as said above, by its rank and valence among the children. On each axis this is
   one division, rounded toward minus infinity; nothing is rounded before it.

   THE STORED FORM (rules 8.1 to 8.7). A stored mesh is the same as a string of bytes, in fields of bits without gaps,
   most significant bit first, each byte filled from its top bit: form number (4 bits: 1), index width w (5), counts of
   vertices (20), hexes, quads, segments and points (18 each); from bit 101 on the coordinates (30 each, two's
   complement, the three of each vertex together), then the corners of hexes, quads, segments and points (w each); then
   0 bits up to a whole byte. w is the count of binary digits of V - 1 for V vertices, and 1 if V is 1. A mesh has just
   one stored form.

   ARGUMENTS. A table or buffer is a pointer and a length: how many numbers a table has, not how many entries; how many
   bytes a string of bytes has. The caller promises that every length is honest, that each pointer is aligned as its
   type asks (malloc's are; bytes may lie anywhere), and that no buffer that is written to overlaps another one. With a
   length of 0 the pointer may be null. Nothing else is asked: whatever the bytes, numbers and lengths are, the call
   comes back with an answer, and none reads or writes outside of what it was given.

   No function allocates, keeps a pointer, reads or writes a file, or has a state. Every function may be called by
   several threads at once if they share no buffer that is written to. The archive needs no library besides C's.

   STACK. What a call takes, as measured on x86-64 (tests/stack.c) and rounded up: mlca_refine 210,000 bytes,
   mlca_irregular_count 80,000; mlca_refine_tables, mlca_finished_counts and mlca_irregular_count_tables 70,000; every
   other one 2,000. The size of a mesh does not matter. 256 kilobytes of stack are enough for a thread that does little
   else. */
#ifndef MLCA_H
#define MLCA_H

#include <stddef.h>
#include <stdint.h>

#ifdef __cplusplus
extern "C" {
#endif

/* The version of this header, 1.1.0, which as one number is 10100. mlca_version() tells that of the archive. */
#define MLCA_VERSION_MAJOR 1
#define MLCA_VERSION_MINOR 1
#define MLCA_VERSION_PATCH 0
#define MLCA_VERSION (MLCA_VERSION_MAJOR * 10000 + MLCA_VERSION_MINOR * 100 + MLCA_VERSION_PATCH)

/* Why a call was refused (rules 7.1 to 7.16). Each function below lists its checks in the order in which they are made,
   each over the whole mesh; the answer is the first that fails. In brackets: the trade's word. */
enum mlca_refusal {
    MLCA_ACCEPTED = 0,
    MLCA_PARTIAL_ENTRY = 1,           /* the length of a mesh's table is no multiple of its entry (ragged table) */
    MLCA_COUNT_OUT_OF_RANGE = 2,      /* not 1 to 1,000,000 vertices, or over 250,000 cells of a kind (wrong size) */
    MLCA_COORDINATE_OUT_OF_RANGE = 3, /* a coordinate is not from -536,870,912 to 536,870,911 (far vertex) */
    MLCA_CORNER_OUT_OF_RANGE = 4,     /* a corner is not below the count of vertices (unknown corner) */
    MLCA_REPEATED_CORNER = 5,         /* a cell names a corner twice (folded cell) */
    MLCA_DUPLICATE_CELL = 6,          /* two cells of one kind have the same corners, in any order (doubled cell) */
    MLCA_MISMATCHED_FACE = 7,         /* two faces have the same corners, other neighbours going round (twisted face) */
    MLCA_ISOLATED_VERTEX = 8,         /* a vertex is in no cell (loose vertex) */
    MLCA_TOO_MANY_ROUNDS = 9,         /* more than 8 rounds */
    MLCA_RESULT_TOO_LARGE = 10,       /* the finished mesh would pass the ranges of 2 (too large) */
    MLCA_SHORT_BUFFER = 11,           /* a lent buffer is too short, or a mesh too large for a call on stored meshes */
    /* 12 is retired (strayed). It stood for a coordinate that a round left out of range, which is proved never to
       happen: no call gives it, and the number is never used again. */
    MLCA_WRONG_FILE_LENGTH = 13,      /* under 13 bytes, or not the length that the header calls for (wrong length) */
    MLCA_UNKNOWN_FORM = 14,           /* the form number is not 1 */
    MLCA_WRONG_INDEX_WIDTH = 15,      /* the index width is not that of the vertex count (wrong width) */
    MLCA_NONZERO_PADDING = 16         /* a filling bit at the end is 1 (spare bits) */
};

/* A refusal in words, for people. */
static inline const char *mlca_refusal_words(uint32_t refusal)
{
    switch (refusal) {
    case MLCA_ACCEPTED: return "accepted";
    case MLCA_PARTIAL_ENTRY: return "a table's length is no multiple of its entry";
    case MLCA_COUNT_OUT_OF_RANGE: return "no vertex, or too many vertices or cells";
    case MLCA_COORDINATE_OUT_OF_RANGE: return "a coordinate is out of range";
    case MLCA_CORNER_OUT_OF_RANGE: return "a corner is no vertex of the mesh";
    case MLCA_REPEATED_CORNER: return "a cell names a corner twice";
    case MLCA_DUPLICATE_CELL: return "two cells have the same corners";
    case MLCA_MISMATCHED_FACE: return "two faces have the same corners in another going round";
    case MLCA_ISOLATED_VERTEX: return "a vertex is in no cell";
    case MLCA_TOO_MANY_ROUNDS: return "more than 8 rounds";
    case MLCA_RESULT_TOO_LARGE: return "the finished mesh would be too large";
    case MLCA_SHORT_BUFFER: return "a lent buffer is too short, or the mesh too large for this call";
    case 12: return "a retired number, which no call gives and none will";
    case MLCA_WRONG_FILE_LENGTH: return "the file has not the length its header calls for";
    case MLCA_UNKNOWN_FORM: return "the form number is not 1";
    case MLCA_WRONG_INDEX_WIDTH: return "the index width is not that of the vertex count";
    case MLCA_NONZERO_PADDING: return "a filling bit is 1";
    default: return "no refusal has this number";
    }
}

/* The refusal in the answer of a call on stored meshes, which is a count or a refusal number below zero. */
static inline uint32_t mlca_refusal_of(int64_t answer)
{
    return answer < 0 ? (uint32_t)-answer : (uint32_t)MLCA_ACCEPTED;
}

/* A round makes 8 hexes of one, 4 quads of one, 2 segments of one. So at most so many of a kind can be refined; of
   several kinds together fewer, where the finished mesh would pass 1,000,000 vertices (on stored meshes 1,000):

       rounds                    1        2        3        4        5        6        7        8
       hexes                31,250    3,906      488       61        7        0        0        0
       quads                62,500   15,625    3,906      976      244       61       15        3
       segments            125,000   62,500   31,250   15,625    7,812    3,906    1,953      976
       mlca_refine: hexes       32        4        0        0        0        0        0        0
           quads                64       16        4        1        0        0        0        0
           segments            128       64       32       16        8        4        2        1 */
enum {
    MLCA_MOST_ROUNDS = 8,
    MLCA_MOST_VERTICES = 1000000, /* of any mesh */
    MLCA_MOST_CELLS = 250000,     /* of each kind */
    MLCA_STORED_VERTICES = 1000,  /* of a mesh in the calls on stored meshes, before and after the rounds */
    MLCA_STORED_CELLS = 256,      /* of each kind, likewise */
    MLCA_STORED_BYTES = 16063     /* no stored mesh of those sizes is longer */
};

/* Entries of the five tables. */
typedef struct {
    uint32_t vertices, hexes, quads, segments, points;
} mlca_counts;

/* A refusal, or MLCA_ACCEPTED; after a refusal the other numbers are all 0. */
typedef struct {
    uint32_t refusal;
    mlca_counts counts;
} mlca_counts_answer;

typedef struct {
    uint32_t refusal;
    uint64_t count;
} mlca_count_answer;

typedef struct {
    double x, y, z;
} mlca_position;

typedef struct {
    uint32_t refusal;
    mlca_position position;
} mlca_millimetres_answer;

/* ---- The archive. */

/* Its version: 10000 times the major number, 100 times the minor, and the patch. Compare it with MLCA_VERSION. */
uint32_t mlca_version(void);

/* ---- Stored meshes of up to 1,000 vertices and 256 cells of each kind: bytes in, one number out. */

/* Refines a stored mesh (rule 9.16).
   Answer: the count of bytes of the finished stored mesh; or a refusal number below zero.
   Checks: reading's (13 for under 13 bytes, 14, 2, 15, 13, 16, 4, 11), then refining's (1 to 11), then writing's (11).
   11 is given when the mesh or the finished mesh passes the sizes above, or when the result buffer is too short.
   result: the finished stored mesh in its first bytes, the rest unchanged; after a refusal all unchanged.
   Lend: MLCA_STORED_BYTES bytes are always enough. */
int64_t mlca_refine(const uint8_t *stored, size_t stored_len, uint32_t rounds, uint8_t *result, size_t result_len);

/* How many vertices of a stored mesh are irregular (rule 9.17).
   Answer: the count; or a refusal number below zero.
   Checks: reading's, 11 for a mesh beyond the sizes above; then 1 to 8. */
int64_t mlca_irregular_count(const uint8_t *stored, size_t stored_len);

/* ---- A vertex in millimetres (rule 9.12). */

/* Answer: each coordinate divided by 1024, exactly; or 3 and zeros if one is out of range. */
mlca_millimetres_answer mlca_millimetres(int32_t x, int32_t y, int32_t z);

/* ---- Meshes of any size, as five tables. Each of these that takes tables has a shorter form in
   mlca_tables.h.

   How to refine one: ask mlca_finished_counts how large it will be, lend as much as mlca_refine_tables wants for these
   counts, call it. A stored mesh is read first: ask mlca_stored_counts how large its tables are, lend them, call
   mlca_read_tables. V, H, Q, S and P below are a mesh's counts of vertices, hexes, quads, segments and points. */

/* The finished counts: those of a mesh after some rounds, which are the answer of mlca_refine_tables (rule 9.13).
   Answer: the counts; or a refusal and zeros.
   Checks: 1 to 10.
   numbers: may hold anything before; all zero after, refused or not.
   Lend: any length gives the same answer, 0 included. Time is that of the checks of mlca_refine_tables, and near-linear
       with 1 + max(V, 48 H + 16 Q + 4 S, 3 P) numbers.

   By hand: let a mesh have E different edges and F different faces. One round makes of them
       V + E + F + H vertices, 2 E + 4 F + 6 H edges, 4 F + 12 H faces, 8 H hexes, 4 Q quads, 2 S segments, P points.
   At first E is at most 12 H + 4 Q + S and F at most 6 H + Q, fewer where cells share edges and faces. Memory for the
   counts that follow from these two bounds is always enough, and so is memory for MLCA_MOST_VERTICES and
   MLCA_MOST_CELLS where they are less. */
mlca_counts_answer mlca_finished_counts(
    const int32_t *vertices, size_t vertices_len,
    const uint32_t *hexes, size_t hexes_len,
    const uint32_t *quads, size_t quads_len,
    const uint32_t *segments, size_t segments_len,
    const uint32_t *points, size_t points_len,
    uint32_t rounds,
    uint32_t *numbers, size_t numbers_len);

/* Refines a mesh by 0 to 8 rounds; 0 copies it (rules 9.1 to 9.3).
   Answer: the counts of the finished mesh; or a refusal and zeros.
   Checks: 1 to 11 in order, each over the whole mesh, before any round.
   output_*: the finished mesh in the first entries of each table, the rest unchanged; after a refusal all unchanged.
       Each coordinate is the exact one where no division that leads to it left a remainder. Otherwise it is below the
       exact one, by less than one unit for each round. It never leaves the first mesh's bounding box. No round,
       neither the last nor one on the way, leaves a coordinate out of the range that check 3 asks for.
   working_*, numbers32, numbers64: may hold anything before; all zero after, refused or not.
   Lend, for the finished counts: 3 numbers a vertex, 8 a hex, 4 a quad, 2 a segment and 1 a point, in the output tables
       and in the working tables; 8 numbers32 and 3 numbers64 a vertex. Less of any of them is refused with 11, with 0
       rounds too. No mesh asks for more than 27 megabytes of output and 83 of working memory. Lending too much costs
       only the time to clear the working memory; spare numbers at the end of a lent table are no reason for a refusal.
   Time: the checks are near-linear where numbers32 has also 1 + max(V, 48 H + 16 Q + 4 S, 3 P) places for the mesh
       before the rounds, which 8 for each finished vertex nearly always are from one round on. With k times fewer they
       go over the edges, faces, cells or vertices about k times. Where fewer than 8192 numbers are lent and do not
       suffice, an array of 8192 on the stack serves instead. Where even 1024 times would not suffice, as on a contrived
       mesh, each edge, face or cell is compared with each other one, which may take long. The answer is the same. */
mlca_counts_answer mlca_refine_tables(
    const int32_t *vertices, size_t vertices_len,
    const uint32_t *hexes, size_t hexes_len,
    const uint32_t *quads, size_t quads_len,
    const uint32_t *segments, size_t segments_len,
    const uint32_t *points, size_t points_len,
    uint32_t rounds,
    int32_t *output_vertices, size_t output_vertices_len,
    uint32_t *output_hexes, size_t output_hexes_len,
    uint32_t *output_quads, size_t output_quads_len,
    uint32_t *output_segments, size_t output_segments_len,
    uint32_t *output_points, size_t output_points_len,
    int32_t *working_vertices, size_t working_vertices_len,
    uint32_t *working_hexes, size_t working_hexes_len,
    uint32_t *working_quads, size_t working_quads_len,
    uint32_t *working_segments, size_t working_segments_len,
    uint32_t *working_points, size_t working_points_len,
    uint32_t *numbers32, size_t numbers32_len,
    uint64_t *numbers64, size_t numbers64_len);

/* The counts in a stored mesh's header (rule 9.14).
   Answer: the five counts; or a refusal and zeros.
   Checks: 13 (under 13 bytes), 14, 2. The index width, the whole length and all that stands behind the header are not
       looked at: the first 13 bytes of a file are enough. */
mlca_counts_answer mlca_stored_counts(const uint8_t *stored, size_t stored_len);

/* Reads a stored mesh (rules 9.4, 9.5, 9.8).
   Answer: its counts; or a refusal and zeros.
   Checks: 13 (under 13 bytes), 14, 2, 15, 13 (the whole length), 16, 4, 11. Whether the mesh is sound (5 to 8) is not
       looked at. What was accepted, written again, gives the same bytes.
   Tables: the mesh in the first entries of each, the rest unchanged; after a refusal all unchanged.
   Lend: 3 numbers a vertex, 8 a hex, 4 a quad, 2 a segment, 1 a point, for the answer of mlca_stored_counts. */
mlca_counts_answer mlca_read_tables(
    const uint8_t *stored, size_t stored_len,
    int32_t *vertices, size_t vertices_len,
    uint32_t *hexes, size_t hexes_len,
    uint32_t *quads, size_t quads_len,
    uint32_t *segments, size_t segments_len,
    uint32_t *points, size_t points_len);

/* Writes a mesh in the stored form (rules 9.6, 9.7, 9.9).
   Answer: the count of bytes; or a refusal and 0.
   Checks: 1 to 4, then 11. What was accepted is read back as the same mesh.
   result: the stored mesh in its first bytes, the rest unchanged; after a refusal all unchanged.
   Lend: (101 + 90 V + w (8 H + 4 Q + 2 S + P)) / 8 bytes, rounded up. w is the count of binary digits of V - 1, or 1 if
       V is 1. */
mlca_count_answer mlca_write_tables(
    const int32_t *vertices, size_t vertices_len,
    const uint32_t *hexes, size_t hexes_len,
    const uint32_t *quads, size_t quads_len,
    const uint32_t *segments, size_t segments_len,
    const uint32_t *points, size_t points_len,
    uint8_t *result, size_t result_len);

/* How many vertices are irregular: their valence is not 2 to the power of their rank, 1, 2, 4 or 8 (rules 9.10, 9.11).
   Answer: the count; or a refusal and 0.
   Checks: 1 to 8.
   numbers: may hold anything before; all zero after, refused or not.
   Lend: any length gives the same answer, 0 included. The call is near-linear with
       max(2 V, 1 + 42 H + 7 Q, 1 + 4 S, 1 + 3 P) numbers. With k times fewer the tables are walked about k times; fewer
       than 8192 are as above. */
mlca_count_answer mlca_irregular_count_tables(
    const int32_t *vertices, size_t vertices_len,
    const uint32_t *hexes, size_t hexes_len,
    const uint32_t *quads, size_t quads_len,
    const uint32_t *segments, size_t segments_len,
    const uint32_t *points, size_t points_len,
    uint32_t *numbers, size_t numbers_len);

#ifdef __cplusplus
}
#endif

#endif
