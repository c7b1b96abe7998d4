/* What the files of the plain C kernel share. */
#ifndef BASELINE_H
#define BASELINE_H

#include <stdbool.h>
#include <stddef.h>
#include <stdint.h>

enum { POINT, SEGMENT, QUAD, HEX };

#define MOST_VERTICES 1000000u
#define MOST_CELLS 250000u
#define LEAST_COORDINATE (-536870912)
#define GREATEST_COORDINATE 536870911

/* Five tables with their lengths in numbers; cells by dimension. A mesh is read only. */
struct tables {
    int32_t *vertices;
    size_t vertices_len;
    uint32_t *cells[4];
    size_t cells_len[4];
};

/* Entries of the five tables; cells by dimension. */
struct sizes {
    uint64_t vertices, cells[4];
};

/* Working numbers of any length. */
struct scratch {
    uint32_t *numbers;
    size_t len;
};

static inline struct sizes sizes_of(const struct tables *t)
{
    struct sizes s = { t->vertices_len / 3, { 0 } };
    for (int d = POINT; d <= HEX; d++)
        s.cells[d] = t->cells_len[d] >> d;
    return s;
}

static inline bool out_of_range(const struct sizes *s)
{
    return s->vertices == 0 || s->vertices > MOST_VERTICES || s->cells[POINT] > MOST_CELLS ||
           s->cells[SEGMENT] > MOST_CELLS || s->cells[QUAD] > MOST_CELLS || s->cells[HEX] > MOST_CELLS;
}

static inline bool fits(const struct tables *room, const struct sizes *s)
{
    struct sizes places = sizes_of(room);
    bool enough = places.vertices >= s->vertices;
    for (int d = POINT; d <= HEX; d++)
        enough &= places.cells[d] >= s->cells[d];
    return enough;
}

static inline bool coordinate_out_of_range(int32_t coordinate)
{
    return coordinate < LEAST_COORDINATE || coordinate > GREATEST_COORDINATE;
}

/* The parts of a cell (rules 1.7 to 1.9 of docs/SPECIFICATION.md); not every file uses all of them. */
#define PART_TABLE static const uint8_t __attribute__((unused))

PART_TABLE HEX_EDGES[12][2] = { { 0, 1 }, { 1, 2 }, { 2, 3 }, { 3, 0 }, { 4, 5 }, { 5, 6 },
                                { 6, 7 }, { 7, 4 }, { 0, 4 }, { 1, 5 }, { 2, 6 }, { 3, 7 } };
PART_TABLE HEX_FACES[6][4] = { { 0, 1, 2, 3 }, { 4, 5, 6, 7 }, { 0, 1, 5, 4 },
                               { 1, 2, 6, 5 }, { 2, 3, 7, 6 }, { 3, 0, 4, 7 } };
PART_TABLE QUAD_EDGES[4][2] = { { 0, 1 }, { 1, 2 }, { 2, 3 }, { 3, 0 } };

/* Refusals 1 to 4, or 0. */
uint32_t plain_check_tables(const struct tables *mesh);

/* Refusals 1 to 8, or 0 and the count of faces; the working numbers may hold anything and have any length. */
uint32_t plain_check_mesh(const struct tables *mesh, struct scratch scratch, uint64_t *faces);

/* How many edges a sound mesh has. */
uint64_t plain_count_edges(const struct tables *mesh, struct scratch scratch);

/* Checks 1 to 10: the refusal, or 0 and the sizes after so many rounds (rule 5.3). */
uint32_t plain_count_finished(const struct tables *mesh, uint32_t rounds, struct scratch scratch, struct sizes *finished);

/* The memory that refining is lent. */
struct lent {
    struct tables output, working;
    struct scratch numbers32;
    uint64_t *numbers64;
    size_t numbers64_len;
};

/* Answers with the refusal, or 0 and the finished sizes. */
uint32_t plain_refine(const struct tables *mesh, uint32_t rounds, struct lent *lent, struct sizes *finished);

uint64_t plain_count_irregular(const struct tables *mesh, struct scratch scratch);

/* The sizes in a stored mesh's header: 13 (under 13 bytes), 14, 2, or 0. */
uint32_t plain_read_counts(const uint8_t *bytes, size_t len, struct sizes *sizes);
uint32_t plain_read_stored(const uint8_t *bytes, size_t len, struct tables *room, struct sizes *sizes);
uint32_t plain_write_stored(const struct tables *mesh, uint8_t *buffer, size_t len, uint64_t *written);

#endif
