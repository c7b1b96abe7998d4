/* The entry points of the plain C kernel: baseline_, or mlca_ when it is to stand in for the archive. */
#include "baseline.h"
#include "entries.h"

#include <string.h>

#ifdef AS_ARCHIVE
#define NAME(entry) mlca_##entry
#else
#define NAME(entry) baseline_##entry
#endif

/* Tables of the calls on stored meshes. */
#define PLACES MLCA_STORED_VERTICES
#define CELLS MLCA_STORED_CELLS

/* The parameters for five tables. */
#define TABLES(access, name) \
    access int32_t *name##_vertices, size_t name##_vertices_len, \
    access uint32_t *name##_hexes, size_t name##_hexes_len, \
    access uint32_t *name##_quads, size_t name##_quads_len, \
    access uint32_t *name##_segments, size_t name##_segments_len, \
    access uint32_t *name##_points, size_t name##_points_len

/* A mesh is never written to, but shares its type with tables that are. */
#define TABLES_OF(name) \
    { (int32_t *)name##_vertices, name##_vertices_len, \
      { (uint32_t *)name##_points, (uint32_t *)name##_segments, (uint32_t *)name##_quads, (uint32_t *)name##_hexes }, \
      { name##_points_len, name##_segments_len, name##_quads_len, name##_hexes_len } }

static mlca_counts_answer counts_answer(uint32_t refusal, const struct sizes *s)
{
    mlca_counts_answer answer = { refusal, { 0 } };
    if (refusal == 0)
        answer.counts = (mlca_counts){ (uint32_t)s->vertices, (uint32_t)s->cells[HEX], (uint32_t)s->cells[QUAD],
                                       (uint32_t)s->cells[SEGMENT], (uint32_t)s->cells[POINT] };
    return answer;
}

static void clear_tables(const struct tables *t)
{
    memset(t->vertices, 0, t->vertices_len * sizeof *t->vertices);
    for (int d = POINT; d <= HEX; d++)
        memset(t->cells[d], 0, t->cells_len[d] * sizeof *t->cells[d]);
}

mlca_counts_answer NAME(refine_tables)(TABLES(const, mesh), uint32_t rounds, TABLES(, output),
                                       TABLES(, working), uint32_t *numbers32, size_t numbers32_len,
                                       uint64_t *numbers64, size_t numbers64_len)
{
    const struct tables mesh = TABLES_OF(mesh);
    struct lent lent = { TABLES_OF(output), TABLES_OF(working), { numbers32, numbers32_len }, numbers64, numbers64_len };
    struct sizes finished = { 0 };
    uint32_t refusal = plain_refine(&mesh, rounds, &lent, &finished);
    clear_tables(&lent.working);
    memset(numbers32, 0, numbers32_len * sizeof *numbers32);
    memset(numbers64, 0, numbers64_len * sizeof *numbers64);
    return counts_answer(refusal, &finished);
}

mlca_counts_answer NAME(finished_counts)(TABLES(const, mesh), uint32_t rounds, uint32_t *numbers, size_t numbers_len)
{
    const struct tables mesh = TABLES_OF(mesh);
    struct scratch scratch = { numbers, numbers_len };
    struct sizes finished = { 0 };
    uint32_t refusal = plain_count_finished(&mesh, rounds, scratch, &finished);
    memset(numbers, 0, numbers_len * sizeof *numbers);
    return counts_answer(refusal, &finished);
}

mlca_counts_answer NAME(stored_counts)(const uint8_t *stored, size_t stored_len)
{
    struct sizes sizes = { 0 };
    return counts_answer(plain_read_counts(stored, stored_len, &sizes), &sizes);
}

uint32_t NAME(version)(void)
{
    return MLCA_VERSION;
}

mlca_counts_answer NAME(read_tables)(const uint8_t *stored, size_t stored_len, TABLES(, output))
{
    struct tables room = TABLES_OF(output);
    struct sizes sizes = { 0 };
    return counts_answer(plain_read_stored(stored, stored_len, &room, &sizes), &sizes);
}

mlca_count_answer NAME(write_tables)(TABLES(const, mesh), uint8_t *result, size_t result_len)
{
    const struct tables mesh = TABLES_OF(mesh);
    mlca_count_answer answer = { 0, 0 };
    answer.refusal = plain_write_stored(&mesh, result, result_len, &answer.count);
    return answer;
}

mlca_count_answer NAME(irregular_count_tables)(TABLES(const, mesh), uint32_t *numbers, size_t numbers_len)
{
    const struct tables mesh = TABLES_OF(mesh);
    mlca_count_answer answer = { 0, 0 };
    uint64_t faces;
    struct scratch scratch = { numbers, numbers_len };
    answer.refusal = plain_check_mesh(&mesh, scratch, &faces);
    if (answer.refusal == 0)
        answer.count = plain_count_irregular(&mesh, scratch);
    memset(numbers, 0, numbers_len * sizeof *numbers);
    return answer;
}

mlca_millimetres_answer NAME(millimetres)(int32_t x, int32_t y, int32_t z)
{
    mlca_millimetres_answer answer = { 0, { x / 1024.0, y / 1024.0, z / 1024.0 } };
    mlca_millimetres_answer refused = { 3, { 0.0, 0.0, 0.0 } };
    return coordinate_out_of_range(x) || coordinate_out_of_range(y) || coordinate_out_of_range(z) ? refused : answer;
}

/* Fixed tables, as local arrays. */
struct fixed {
    int32_t vertices[3 * PLACES];
    uint32_t points[CELLS], segments[2 * CELLS], quads[4 * CELLS], hexes[8 * CELLS];
};

static struct tables all_of(struct fixed *f)
{
    return (struct tables){ f->vertices, 3 * PLACES, { f->points, f->segments, f->quads, f->hexes },
                            { CELLS, 2 * CELLS, 4 * CELLS, 8 * CELLS } };
}

static struct tables used_part(struct tables t, const struct sizes *s)
{
    t.vertices_len = 3 * s->vertices;
    for (int d = POINT; d <= HEX; d++)
        t.cells_len[d] = s->cells[d] << d;
    return t;
}

int64_t NAME(refine)(const uint8_t *stored, size_t stored_len, uint32_t rounds, uint8_t *result, size_t result_len)
{
    struct fixed input, output, working;
    uint32_t numbers32[8 * PLACES];
    uint64_t numbers64[3 * PLACES], written = 0;
    struct sizes sizes;
    struct tables mesh = all_of(&input);
    struct lent lent = { all_of(&output), all_of(&working), { numbers32, 8 * PLACES }, numbers64, 3 * PLACES };
    uint32_t refusal = plain_read_stored(stored, stored_len, &mesh, &sizes);
    if (refusal == 0) {
        mesh = used_part(mesh, &sizes);
        refusal = plain_refine(&mesh, rounds, &lent, &sizes);
    }
    if (refusal == 0) {
        struct tables finished = used_part(lent.output, &sizes);
        refusal = plain_write_stored(&finished, result, result_len, &written);
    }
    return refusal != 0 ? -(int64_t)refusal : (int64_t)written;
}

int64_t NAME(irregular_count)(const uint8_t *stored, size_t stored_len)
{
    struct fixed input;
    uint32_t numbers[8 * PLACES];
    uint64_t faces;
    struct sizes sizes;
    struct tables mesh = all_of(&input);
    struct scratch scratch = { numbers, 8 * PLACES };
    uint32_t refusal = plain_read_stored(stored, stored_len, &mesh, &sizes);
    if (refusal == 0) {
        mesh = used_part(mesh, &sizes);
        refusal = plain_check_mesh(&mesh, scratch, &faces);
    }
    return refusal != 0 ? -(int64_t)refusal : (int64_t)plain_count_irregular(&mesh, scratch);
}
