/* Checks 1 to 8 (rules 7.1 to 7.8 of docs/SPECIFICATION.md) and the counts of edges and faces.
   Keys are looked at in parts: as many parts as it takes for one part's keys to fit the numbers at hand. */
#include "baseline.h"
#include "keys.h"

/* Where less is lent, this much of the stack serves instead. */
#define LOCAL_NUMBERS 4096

static bool has_partial_entry(const struct tables *m)
{
    return m->vertices_len % 3 || m->cells_len[HEX] % 8 || m->cells_len[QUAD] % 4 || m->cells_len[SEGMENT] % 2;
}

static bool has_coordinate_out_of_range(const struct tables *m)
{
    bool outside = false;
    for (size_t i = 0; i < m->vertices_len; i++)
        outside |= coordinate_out_of_range(m->vertices[i]);
    return outside;
}

static bool has_corner_out_of_range(const struct tables *m)
{
    bool outside = false;
    size_t count = m->vertices_len / 3;
    for (int d = POINT; d <= HEX; d++)
        for (size_t i = 0; i < m->cells_len[d]; i++)
            outside |= m->cells[d][i] >= count;
    return outside;
}

INLINE bool has_repeat(const uint32_t *cells, size_t len, int k)
{
    bool repeat = false;
    for (size_t at = 0; at < len; at += k)
        for (int i = 1; i < k; i++)
            for (int j = 0; j < i; j++)
                repeat |= cells[at + i] == cells[at + j];
    return repeat;
}

static bool has_repeated_corner(const struct tables *m)
{
    return has_repeat(m->cells[HEX], m->cells_len[HEX], 8) || has_repeat(m->cells[QUAD], m->cells_len[QUAD], 4) ||
           has_repeat(m->cells[SEGMENT], m->cells_len[SEGMENT], 2);
}

enum outcome { PASSED, FAILED, FULL };

/* One part of the keys: those whose hash says so. */
struct part {
    uint32_t mask, value;
};

INLINE bool in_part(struct part part, uint64_t hash)
{
    return ((uint32_t)(hash >> 16) & part.mask) == part.value;
}

/* Fails when two cells have one corner set. */
INLINE enum outcome sweep_cells(const uint32_t *cells, size_t len, int k, struct part part, struct keys *keys)
{
    for (size_t at = 0; at < len; at += k) {
        uint32_t key[8], before = keys->count;
        for (int i = 0; i < k; i++)
            key[i] = cells[at + i];
        sort_key(key, k);
        uint64_t hash = hash_key(key, k);
        if (!in_part(part, hash))
            continue;
        if (key_row(keys, key, k, k + 1, hash) == NULL)
            return FULL;
        if (keys->count == before)
            return FAILED;
    }
    return PASSED;
}

static enum outcome sweep_hexes(const struct tables *m, struct part part, struct keys *keys)
{
    return sweep_cells(m->cells[HEX], m->cells_len[HEX], 8, part, keys);
}

static enum outcome sweep_quads(const struct tables *m, struct part part, struct keys *keys)
{
    return sweep_cells(m->cells[QUAD], m->cells_len[QUAD], 4, part, keys);
}

static enum outcome sweep_segments(const struct tables *m, struct part part, struct keys *keys)
{
    return sweep_cells(m->cells[SEGMENT], m->cells_len[SEGMENT], 2, part, keys);
}

static enum outcome sweep_points(const struct tables *m, struct part part, struct keys *keys)
{
    return sweep_cells(m->cells[POINT], m->cells_len[POINT], 1, part, keys);
}

/* A face's row ends with the corner across from its least; fails when that is another than before. */
INLINE enum outcome sweep_face(const uint32_t *cell, const uint8_t *places, struct part part, struct keys *keys)
{
    uint32_t key[4], before = keys->count;
    int least = 0;
    for (int i = 0; i < 4; i++) {
        key[i] = cell[places[i]];
        least = key[i] < key[least] ? i : least;
    }
    uint32_t across = key[least ^ 2];
    sort_key(key, 4);
    uint64_t hash = hash_key(key, 4);
    if (!in_part(part, hash))
        return PASSED;
    uint32_t *row = key_row(keys, key, 4, 6, hash);
    if (row == NULL)
        return FULL;
    if (keys->count > before)
        row[5] = across;
    return row[5] == across ? PASSED : FAILED;
}

static enum outcome sweep_faces(const struct tables *m, struct part part, struct keys *keys)
{
    static const uint8_t whole[4] = { 0, 1, 2, 3 };
    enum outcome outcome = PASSED;
    for (size_t at = 0; at < m->cells_len[HEX] && outcome == PASSED; at += 8)
        for (int f = 0; f < 6 && outcome == PASSED; f++)
            outcome = sweep_face(m->cells[HEX] + at, HEX_FACES[f], part, keys);
    for (size_t at = 0; at < m->cells_len[QUAD] && outcome == PASSED; at += 4)
        outcome = sweep_face(m->cells[QUAD] + at, whole, part, keys);
    return outcome;
}

INLINE enum outcome sweep_edge(uint32_t a, uint32_t b, struct part part, struct keys *keys)
{
    uint32_t key[2] = { a, b };
    sort_key(key, 2);
    uint64_t hash = hash_key(key, 2);
    return !in_part(part, hash) || key_row(keys, key, 2, 3, hash) != NULL ? PASSED : FULL;
}

static enum outcome sweep_edges(const struct tables *m, struct part part, struct keys *keys)
{
    enum outcome outcome = PASSED;
    for (size_t at = 0; at < m->cells_len[HEX]; at += 8)
        for (int e = 0; e < 12; e++)
            outcome |= sweep_edge(m->cells[HEX][at + HEX_EDGES[e][0]], m->cells[HEX][at + HEX_EDGES[e][1]], part, keys);
    for (size_t at = 0; at < m->cells_len[QUAD]; at += 4)
        for (int e = 0; e < 4; e++)
            outcome |= sweep_edge(m->cells[QUAD][at + QUAD_EDGES[e][0]], m->cells[QUAD][at + QUAD_EDGES[e][1]], part, keys);
    for (size_t at = 0; at < m->cells_len[SEGMENT]; at += 2)
        outcome |= sweep_edge(m->cells[SEGMENT][at], m->cells[SEGMENT][at + 1], part, keys);
    return outcome;
}

typedef enum outcome sweep(const struct tables *mesh, struct part part, struct keys *keys);

/* The greatest power of two that is not above the number, as its exponent; at least 1. */
static int log_floor(uint64_t number)
{
    return number < 4 ? 1 : 63 - __builtin_clzll(number);
}

/* Sweeps in one part, or two, or four .. until each part fits. Counts the different keys. */
static enum outcome sweep_in_parts(sweep *one, const struct tables *m, uint64_t most, int width,
                                   struct scratch scratch, uint64_t *count)
{
    uint32_t local[LOCAL_NUMBERS];
    if (scratch.len < LOCAL_NUMBERS)
        scratch = (struct scratch){ local, LOCAL_NUMBERS };
    uint64_t rows = scratch.len / (width + 1) < most ? scratch.len / (width + 1) : most;
    for (uint32_t parts = 1;; parts *= 2) {
        enum outcome outcome = PASSED;
        *count = 0;
        for (uint32_t value = 0; value < parts && outcome == PASSED; value++) {
            struct keys keys;
            lay_out_keys(&keys, scratch.numbers, log_floor(rows), (uint32_t)rows, width);
            outcome = one(m, (struct part){ parts - 1, value }, &keys);
            *count += keys.count;
        }
        if (outcome != FULL)
            return outcome;
    }
}

static bool has_duplicate_cell(const struct tables *m, struct scratch scratch)
{
    sweep *sweeps[4] = { sweep_points, sweep_segments, sweep_quads, sweep_hexes };
    uint64_t count;
    for (int d = POINT; d <= HEX; d++)
        if (sweep_in_parts(sweeps[d], m, m->cells_len[d] >> d, (1 << d) + 1, scratch, &count) == FAILED)
            return true;
    return false;
}

uint64_t plain_count_edges(const struct tables *m, struct scratch scratch)
{
    uint64_t count, most = 12 * (m->cells_len[HEX] / 8) + m->cells_len[QUAD] + m->cells_len[SEGMENT] / 2;
    sweep_in_parts(sweep_edges, m, most, 3, scratch, &count);
    return count;
}

/* A bit for each vertex, as many vertices at a time as there are bits. */
static bool has_isolated_vertex(const struct tables *m, struct scratch scratch)
{
    uint32_t local[LOCAL_NUMBERS];
    if (scratch.len < LOCAL_NUMBERS)
        scratch = (struct scratch){ local, LOCAL_NUMBERS };
    uint64_t count = m->vertices_len / 3, bits = 32 * (uint64_t)scratch.len;
    for (uint64_t first = 0; first < count; first += bits) {
        uint64_t here = count - first < bits ? count - first : bits, held = 0;
        memset(scratch.numbers, 0, (here + 31) / 32 * 4);
        for (int d = POINT; d <= HEX; d++)
            for (size_t i = 0; i < m->cells_len[d]; i++) {
                uint64_t place = m->cells[d][i] - first;
                if (place < here)
                    scratch.numbers[place / 32] |= 1u << place % 32;
            }
        for (uint64_t i = 0; i < (here + 31) / 32; i++)
            held += (uint64_t)__builtin_popcount(scratch.numbers[i]);
        if (held < here)
            return true;
    }
    return false;
}

uint32_t plain_check_tables(const struct tables *m)
{
    struct sizes sizes = sizes_of(m);
    if (has_partial_entry(m))
        return 1;
    if (out_of_range(&sizes))
        return 2;
    return has_coordinate_out_of_range(m) ? 3 : has_corner_out_of_range(m) ? 4 : 0;
}

uint32_t plain_check_mesh(const struct tables *m, struct scratch scratch, uint64_t *faces)
{
    uint64_t most_faces = 6 * (m->cells_len[HEX] / 8) + m->cells_len[QUAD] / 4;
    uint32_t refusal = plain_check_tables(m);
    if (refusal != 0 || has_repeated_corner(m))
        return refusal != 0 ? refusal : 5;
    if (has_duplicate_cell(m, scratch))
        return 6;
    if (sweep_in_parts(sweep_faces, m, most_faces, 6, scratch, faces) == FAILED)
        return 7;
    return has_isolated_vertex(m, scratch) ? 8 : 0;
}
