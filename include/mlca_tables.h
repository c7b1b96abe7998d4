/* The calls of mlca.h on tables, with structs in the place of long rows of arguments. A mesh that is read, tables that
   are written and working memory are three types, so the compiler refuses one in the place of another. Header only, for
   C11 and C++. Each of the calls is the one of mlca.h and promises what is said there. Nothing is allocated: one
   function tells how many bytes to lend, another lays tables out in them.

       size_t len = mlca_numbers_for_checks(mesh);
       uint32_t *numbers = malloc(len * sizeof *numbers);
       mlca_counts_answer finished = mlca_finished_counts_mesh(mesh, rounds, numbers, len);
       ... stop if finished.refusal is not MLCA_ACCEPTED ...
       mlca_output output = mlca_output_in(malloc(mlca_output_bytes(finished.counts)), finished.counts);
       mlca_working working = mlca_working_in(malloc(mlca_working_bytes(mesh, finished.counts)), mesh, finished.counts);
       mlca_refine_mesh(mesh, rounds, output, working);
       mlca_mesh refined = mlca_mesh_of(output, finished.counts);

   Refining is then accepted, if malloc had the memory. For small meshes NULL and 0 do as well as numbers and len.
   examples/tables.c is such a program. */
#ifndef MLCA_TABLES_H
#define MLCA_TABLES_H

#include "mlca.h"

/* A mesh to be read. Lengths are counts of numbers: 3 a vertex, 8 a hex, 4 a quad, 2 a segment, 1 a point. */
typedef struct {
    const int32_t *vertices;
    size_t vertices_len;
    const uint32_t *hexes;
    size_t hexes_len;
    const uint32_t *quads;
    size_t quads_len;
    const uint32_t *segments;
    size_t segments_len;
    const uint32_t *points;
    size_t points_len;
} mlca_mesh;

/* Tables lent for a result, with lengths as in mlca_mesh. */
typedef struct {
    int32_t *vertices;
    size_t vertices_len;
    uint32_t *hexes;
    size_t hexes_len;
    uint32_t *quads;
    size_t quads_len;
    uint32_t *segments;
    size_t segments_len;
    uint32_t *points;
    size_t points_len;
} mlca_output;

/* Working memory of refining: tables with lengths as in mlca_mesh, 32-bit and 64-bit numbers. */
typedef struct {
    int32_t *vertices;
    size_t vertices_len;
    uint32_t *hexes;
    size_t hexes_len;
    uint32_t *quads;
    size_t quads_len;
    uint32_t *segments;
    size_t segments_len;
    uint32_t *points;
    size_t points_len;
    uint32_t *numbers32;
    size_t numbers32_len;
    uint64_t *numbers64;
    size_t numbers64_len;
} mlca_working;

/* ---- The calls. */

static inline mlca_counts_answer mlca_finished_counts_mesh(mlca_mesh mesh, uint32_t rounds, uint32_t *numbers,
                                                           size_t numbers_len)
{
    return mlca_finished_counts(mesh.vertices, mesh.vertices_len, mesh.hexes, mesh.hexes_len,
                                mesh.quads, mesh.quads_len, mesh.segments, mesh.segments_len,
                                mesh.points, mesh.points_len, rounds, numbers, numbers_len);
}

static inline mlca_counts_answer mlca_refine_mesh(mlca_mesh mesh, uint32_t rounds, mlca_output output,
                                                  mlca_working working)
{
    return mlca_refine_tables(mesh.vertices, mesh.vertices_len, mesh.hexes, mesh.hexes_len, mesh.quads, mesh.quads_len,
                              mesh.segments, mesh.segments_len, mesh.points, mesh.points_len, rounds,
                              output.vertices, output.vertices_len, output.hexes, output.hexes_len,
                              output.quads, output.quads_len, output.segments, output.segments_len,
                              output.points, output.points_len,
                              working.vertices, working.vertices_len, working.hexes, working.hexes_len,
                              working.quads, working.quads_len, working.segments, working.segments_len,
                              working.points, working.points_len,
                              working.numbers32, working.numbers32_len, working.numbers64, working.numbers64_len);
}

static inline mlca_counts_answer mlca_read_mesh(const uint8_t *stored, size_t stored_len, mlca_output output)
{
    return mlca_read_tables(stored, stored_len, output.vertices, output.vertices_len, output.hexes, output.hexes_len,
                            output.quads, output.quads_len, output.segments, output.segments_len,
                            output.points, output.points_len);
}

static inline mlca_count_answer mlca_write_mesh(mlca_mesh mesh, uint8_t *result, size_t result_len)
{
    return mlca_write_tables(mesh.vertices, mesh.vertices_len, mesh.hexes, mesh.hexes_len, mesh.quads, mesh.quads_len,
                             mesh.segments, mesh.segments_len, mesh.points, mesh.points_len, result, result_len);
}

static inline mlca_count_answer mlca_irregular_count_mesh(mlca_mesh mesh, uint32_t *numbers, size_t numbers_len)
{
    return mlca_irregular_count_tables(mesh.vertices, mesh.vertices_len, mesh.hexes, mesh.hexes_len,
                                       mesh.quads, mesh.quads_len, mesh.segments, mesh.segments_len,
                                       mesh.points, mesh.points_len, numbers, numbers_len);
}

/* ---- How much to lend. Counts are those of an accepted answer. */

static inline size_t mlca_greater(size_t a, size_t b)
{
    return a < b ? b : a;
}

/* How many working numbers make the checks of mlca_finished_counts and mlca_refine_tables near-linear:
   1 + max(V, 48 H + 16 Q + 4 S, 3 P). */
static inline size_t mlca_numbers_for_checks(mlca_mesh mesh)
{
    size_t edges = 6 * mesh.hexes_len + 4 * mesh.quads_len + 2 * mesh.segments_len;
    return 1 + mlca_greater(edges, mlca_greater(mesh.vertices_len / 3, 3 * mesh.points_len));
}

/* How many make mlca_irregular_count_tables near-linear: max(2 V, 1 + 42 H + 7 Q, 1 + 4 S, 1 + 3 P). */
static inline size_t mlca_numbers_for_irregular_count(mlca_mesh mesh)
{
    size_t faces = 42 * (mesh.hexes_len / 8) + 7 * (mesh.quads_len / 4);
    size_t cells = mlca_greater(faces, mlca_greater(2 * mesh.segments_len, 3 * mesh.points_len));
    return mlca_greater(2 * (mesh.vertices_len / 3), 1 + cells);
}

/* How many bytes the stored form of a mesh with these counts has. */
static inline size_t mlca_stored_bytes(mlca_counts counts)
{
    size_t corners = 8 * (size_t)counts.hexes + 4 * (size_t)counts.quads + 2 * (size_t)counts.segments + counts.points;
    size_t width = 1;
    while (width < 31 && counts.vertices > (uint32_t)1 << width)
        width++;
    return (101 + 90 * (size_t)counts.vertices + width * corners + 7) / 8;
}

/* How many bytes five tables with these counts have. */
static inline size_t mlca_output_bytes(mlca_counts counts)
{
    size_t corners = 8 * (size_t)counts.hexes + 4 * (size_t)counts.quads + 2 * (size_t)counts.segments + counts.points;
    return sizeof(uint32_t) * (3 * (size_t)counts.vertices + corners);
}

/* How many 32-bit numbers refining a mesh to these finished counts is best lent: the 8 a vertex that it asks for, and
   more where the checks of the mesh want more. */
static inline size_t mlca_numbers32_for_refining(mlca_mesh mesh, mlca_counts finished)
{
    return mlca_greater(8 * (size_t)finished.vertices, mlca_numbers_for_checks(mesh));
}

/* How many bytes the working memory of refining a mesh to these finished counts has. */
static inline size_t mlca_working_bytes(mlca_mesh mesh, mlca_counts finished)
{
    return sizeof(uint64_t) * 3 * (size_t)finished.vertices +
           sizeof(uint32_t) * mlca_numbers32_for_refining(mesh, finished) + mlca_output_bytes(finished);
}

/* ---- Tables laid out in lent memory. */

/* Five tables in mlca_output_bytes(counts) bytes, which lie as 32-bit numbers must. The vertices come first: to free the
   memory, free(output.vertices). */
static inline mlca_output mlca_output_in(void *memory, mlca_counts counts)
{
    mlca_output output;
    output.vertices = (int32_t *)memory;
    output.vertices_len = 3 * (size_t)counts.vertices;
    output.hexes = (uint32_t *)memory + output.vertices_len;
    output.hexes_len = 8 * (size_t)counts.hexes;
    output.quads = output.hexes + output.hexes_len;
    output.quads_len = 4 * (size_t)counts.quads;
    output.segments = output.quads + output.quads_len;
    output.segments_len = 2 * (size_t)counts.segments;
    output.points = output.segments + output.segments_len;
    output.points_len = counts.points;
    return output;
}

/* Working memory in mlca_working_bytes(mesh, finished) bytes, which lie as 64-bit numbers must. These come first in it,
   so that all numbers lie well: to free the memory, free(working.numbers64). */
static inline mlca_working mlca_working_in(void *memory, mlca_mesh mesh, mlca_counts finished)
{
    mlca_working working;
    mlca_output tables;
    working.numbers64 = (uint64_t *)memory;
    working.numbers64_len = 3 * (size_t)finished.vertices;
    working.numbers32 = (uint32_t *)(working.numbers64 + working.numbers64_len);
    working.numbers32_len = mlca_numbers32_for_refining(mesh, finished);
    tables = mlca_output_in(working.numbers32 + working.numbers32_len, finished);
    working.vertices = tables.vertices;
    working.vertices_len = tables.vertices_len;
    working.hexes = tables.hexes;
    working.hexes_len = tables.hexes_len;
    working.quads = tables.quads;
    working.quads_len = tables.quads_len;
    working.segments = tables.segments;
    working.segments_len = tables.segments_len;
    working.points = tables.points;
    working.points_len = tables.points_len;
    return working;
}

/* The mesh with these counts at the front of tables, as reading and refining leave it. */
static inline mlca_mesh mlca_mesh_of(mlca_output output, mlca_counts counts)
{
    mlca_mesh mesh;
    mesh.vertices = output.vertices;
    mesh.vertices_len = 3 * (size_t)counts.vertices;
    mesh.hexes = output.hexes;
    mesh.hexes_len = 8 * (size_t)counts.hexes;
    mesh.quads = output.quads;
    mesh.quads_len = 4 * (size_t)counts.quads;
    mesh.segments = output.segments;
    mesh.segments_len = 2 * (size_t)counts.segments;
    mesh.points = output.points;
    mesh.points_len = counts.points;
    return mesh;
}

#endif
