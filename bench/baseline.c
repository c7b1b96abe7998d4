/* Refining in plain C, as a baseline for the proved kernel. A round goes over the cells once: edges and faces are
   numbered by a hash over their whole corner sets, children are written, and each child's total, straight from the
   parent's corners by the weights 27, 9, 3, 1, is added to the fine vertices that it counts for. Then the sums are
   divided. */
#include "baseline.h"
#include "keys.h"

/* Sums are of coordinates raised by this much, so that they are not negative and division is the floor. */
#define RAISE 536870912u

/* A vertex's holding: 3 less its rank in the top bits, its valence below. Hexes come first, so a greater top part
   means that a cell of lower dimension was met, and the sum starts anew. */
#define RANK_SHIFT 30
#define VALENCE_MASK ((1u << RANK_SHIFT) - 1)

/* Places 0 to 7 are corners, 8 to 19 edges, 20 to 25 faces, 26 the hex: the corners of the eight children. */
static const uint8_t HEX_CHILDREN[8][8] = {
    { 0, 8, 20, 11, 16, 22, 26, 25 }, { 8, 1, 9, 20, 22, 17, 23, 26 },
    { 20, 9, 2, 10, 26, 23, 18, 24 }, { 11, 20, 10, 3, 25, 26, 24, 19 },
    { 16, 22, 26, 25, 4, 12, 21, 15 }, { 22, 17, 23, 26, 12, 5, 13, 21 },
    { 26, 23, 18, 24, 21, 13, 6, 14 }, { 25, 26, 24, 19, 15, 21, 14, 7 },
};

/* Places 0 to 3 are corners, 4 to 7 edges, 8 the quad. */
static const uint8_t QUAD_CHILDREN[4][4] = { { 0, 4, 8, 7 }, { 4, 1, 5, 8 }, { 8, 5, 2, 6 }, { 7, 8, 6, 3 } };

struct round {
    const struct tables *coarse;
    struct tables *fine;
    struct keys edges, faces;
    uint32_t first_edge, first_face, first_hex, vertices;
    uint32_t *holdings;
    uint64_t *sums;
};

INLINE uint32_t edge_vertex(struct round *r, uint32_t a, uint32_t b)
{
    uint32_t key[2] = { a, b };
    sort_key(key, 2);
    const uint32_t *row = key_row(&r->edges, key, 2, 3, hash_key(key, 2));
    return r->first_edge + (uint32_t)((row - r->edges.rows) / 3);
}

INLINE uint32_t face_vertex(struct round *r, uint32_t a, uint32_t b, uint32_t c, uint32_t d)
{
    uint32_t key[4] = { a, b, c, d };
    sort_key(key, 4);
    const uint32_t *row = key_row(&r->faces, key, 4, 5, hash_key(key, 4));
    return r->first_face + (uint32_t)((row - r->faces.rows) / 5);
}

INLINE void raised(const struct round *r, uint32_t vertex, uint64_t position[3])
{
    for (int axis = 0; axis < 3; axis++)
        position[axis] = (uint32_t)r->coarse->vertices[3 * (size_t)vertex + axis] + RAISE;
}

/* One step along an axis of the cell: each corner weighs 3 for itself and 1 for the other. */
INLINE void step(uint64_t a[3], uint64_t b[3])
{
    for (int axis = 0; axis < 3; axis++) {
        uint64_t near = a[axis], far = b[axis];
        a[axis] = 3 * near + far;
        b[axis] = near + 3 * far;
    }
}

/* Adds the totals of some children of one cell to a vertex that they all hold. */
INLINE void add(struct round *r, uint32_t vertex, int dimension, uint32_t children, const uint64_t total[3])
{
    uint32_t mark = (uint32_t)(3 - dimension) << RANK_SHIFT, old = r->holdings[vertex];
    uint64_t *sum = r->sums + 3 * (size_t)vertex;
    bool anew = dimension < HEX && old >> RANK_SHIFT < mark >> RANK_SHIFT;
    r->holdings[vertex] = anew ? mark + children : old + children;
    for (int axis = 0; axis < 3; axis++)
        sum[axis] = anew ? total[axis] : sum[axis] + total[axis];
}

INLINE void add_of(struct round *r, uint32_t vertex, int dimension, uint64_t totals[][3], const uint8_t *places, int n)
{
    uint64_t sum[3] = { 0 };
    for (int i = 0; i < n; i++)
        for (int axis = 0; axis < 3; axis++)
            sum[axis] += totals[places[i]][axis];
    add(r, vertex, dimension, (uint32_t)n, sum);
}

static void split_hexes(struct round *r)
{
    static const uint8_t all[8] = { 0, 1, 2, 3, 4, 5, 6, 7 };
    size_t count = r->coarse->cells_len[HEX] / 8;
    for (size_t number = 0; number < count; number++) {
        const uint32_t *corners = r->coarse->cells[HEX] + 8 * number;
        uint32_t *children = r->fine->cells[HEX] + 64 * number, part[27];
        uint64_t totals[8][3];
        for (int i = 0; i < 8; i++)
            raised(r, part[i] = corners[i], totals[i]);
        for (int e = 0; e < 12; e++)
            part[8 + e] = edge_vertex(r, corners[HEX_EDGES[e][0]], corners[HEX_EDGES[e][1]]);
        for (int f = 0; f < 6; f++)
            part[20 + f] = face_vertex(r, corners[HEX_FACES[f][0]], corners[HEX_FACES[f][1]],
                                       corners[HEX_FACES[f][2]], corners[HEX_FACES[f][3]]);
        part[26] = r->first_hex + (uint32_t)number;
        for (int i = 0; i < 64; i++)
            children[i] = part[HEX_CHILDREN[i / 8][i % 8]];
        for (int i = 0; i < 8; i += 2)
            step(totals[i], totals[i + 1]);
        for (int i = 0; i < 8; i += 4) {
            step(totals[i], totals[i + 3]);
            step(totals[i + 1], totals[i + 2]);
        }
        for (int i = 0; i < 4; i++)
            step(totals[i], totals[i + 4]);
        for (int i = 0; i < 8; i++)
            add(r, part[i], HEX, 1, totals[i]);
        for (int e = 0; e < 12; e++)
            add_of(r, part[8 + e], HEX, totals, HEX_EDGES[e], 2);
        for (int f = 0; f < 6; f++)
            add_of(r, part[20 + f], HEX, totals, HEX_FACES[f], 4);
        add_of(r, part[26], HEX, totals, all, 8);
    }
}

static void split_quads(struct round *r)
{
    static const uint8_t all[4] = { 0, 1, 2, 3 };
    size_t count = r->coarse->cells_len[QUAD] / 4;
    for (size_t number = 0; number < count; number++) {
        const uint32_t *corners = r->coarse->cells[QUAD] + 4 * number;
        uint32_t *children = r->fine->cells[QUAD] + 16 * number, part[9];
        uint64_t totals[4][3];
        for (int i = 0; i < 4; i++)
            raised(r, part[i] = corners[i], totals[i]);
        for (int e = 0; e < 4; e++)
            part[4 + e] = edge_vertex(r, corners[e], corners[(e + 1) % 4]);
        part[8] = face_vertex(r, corners[0], corners[1], corners[2], corners[3]);
        for (int i = 0; i < 16; i++)
            children[i] = part[QUAD_CHILDREN[i / 4][i % 4]];
        step(totals[0], totals[1]);
        step(totals[3], totals[2]);
        step(totals[0], totals[3]);
        step(totals[1], totals[2]);
        for (int i = 0; i < 12; i++)
            totals[i / 3][i % 3] *= 2;
        for (int i = 0; i < 4; i++)
            add(r, part[i], QUAD, 1, totals[i]);
        for (int e = 0; e < 4; e++)
            add_of(r, part[4 + e], QUAD, totals, QUAD_EDGES[e], 2);
        add_of(r, part[8], QUAD, totals, all, 4);
    }
}

static void split_segments(struct round *r)
{
    static const uint8_t both[2] = { 0, 1 };
    size_t count = r->coarse->cells_len[SEGMENT] / 2;
    for (size_t number = 0; number < count; number++) {
        const uint32_t *ends = r->coarse->cells[SEGMENT] + 2 * number;
        uint32_t *children = r->fine->cells[SEGMENT] + 4 * number, middle = edge_vertex(r, ends[0], ends[1]);
        uint64_t totals[2][3];
        raised(r, ends[0], totals[0]);
        raised(r, ends[1], totals[1]);
        children[0] = ends[0];
        children[1] = children[2] = middle;
        children[3] = ends[1];
        step(totals[0], totals[1]);
        for (int i = 0; i < 6; i++)
            totals[i / 3][i % 3] *= 4;
        add(r, ends[0], SEGMENT, 1, totals[0]);
        add(r, ends[1], SEGMENT, 1, totals[1]);
        add_of(r, middle, SEGMENT, totals, both, 2);
    }
}

static void keep_points(struct round *r)
{
    for (size_t number = 0; number < r->coarse->cells_len[POINT]; number++) {
        uint32_t corner = r->fine->cells[POINT][number] = r->coarse->cells[POINT][number];
        uint64_t total[3];
        raised(r, corner, total);
        for (int axis = 0; axis < 3; axis++)
            total[axis] *= 8;
        add(r, corner, POINT, 1, total);
    }
}

/* One division for each axis: by 8 x 2 to the power rank x valence. */
static void divide(struct round *r)
{
    for (size_t vertex = 0; vertex < r->vertices; vertex++) {
        uint32_t holding = r->holdings[vertex], rank = 3 - (holding >> RANK_SHIFT);
        uint64_t divisor = (uint64_t)(holding & VALENCE_MASK) << (3 + rank);
        for (int axis = 0; axis < 3; axis++)
            r->fine->vertices[3 * vertex + axis] = (int32_t)(r->sums[3 * vertex + axis] / divisor - RAISE);
    }
}

/* The exponent of the least power of two that is not below the number; at least 1. */
static int log_ceiling(uint64_t number)
{
    return number <= 2 ? 1 : 64 - __builtin_clzll(number - 1);
}

/* The holdings, then the keys of edges and faces: 8 numbers for each fine vertex are always enough. */
static void run_round(const struct tables *coarse, struct tables *fine, uint64_t edges, uint64_t faces, struct lent *lent)
{
    uint32_t first_edge = (uint32_t)(coarse->vertices_len / 3), first_face = first_edge + (uint32_t)edges;
    uint32_t first_hex = first_face + (uint32_t)faces, *numbers = lent->numbers32.numbers;
    struct round r = { .coarse = coarse, .fine = fine, .first_edge = first_edge, .first_face = first_face,
                       .first_hex = first_hex, .vertices = first_hex + (uint32_t)(coarse->cells_len[HEX] / 8),
                       .holdings = numbers, .sums = lent->numbers64 };
    numbers += r.vertices;
    numbers += lay_out_keys(&r.edges, numbers, log_ceiling(edges), (uint32_t)edges, 3);
    lay_out_keys(&r.faces, numbers, log_ceiling(faces), (uint32_t)faces, 5);
    memset(r.holdings, 0, r.vertices * sizeof *r.holdings);
    memset(r.sums, 0, 3 * (size_t)r.vertices * sizeof *r.sums);
    fine->vertices_len = 3 * (size_t)r.vertices;
    for (int d = POINT; d <= HEX; d++)
        fine->cells_len[d] = coarse->cells_len[d] << d;
    split_hexes(&r);
    split_quads(&r);
    split_segments(&r);
    keep_points(&r);
    divide(&r);
}

static void copy_mesh(const struct tables *mesh, struct tables *output)
{
    memcpy(output->vertices, mesh->vertices, mesh->vertices_len * sizeof *mesh->vertices);
    for (int d = POINT; d <= HEX; d++)
        memcpy(output->cells[d], mesh->cells[d], mesh->cells_len[d] * sizeof *mesh->cells[d]);
}

/* Rounds go to the output and the working tables in turn, the last to the output. */
static void run_rounds(const struct tables *mesh, uint32_t rounds, uint64_t edges, uint64_t faces, struct lent *lent)
{
    struct tables coarse = *mesh;
    for (uint32_t left = rounds; left > 0; left--) {
        struct tables fine = left % 2 == 1 ? lent->output : lent->working;
        uint64_t hexes = coarse.cells_len[HEX] / 8;
        run_round(&coarse, &fine, edges, faces, lent);
        edges = 2 * edges + 4 * faces + 6 * hexes;
        faces = 4 * faces + 12 * hexes;
        coarse = fine;
    }
}

static struct sizes sizes_after(const struct tables *mesh, uint32_t rounds, uint64_t edges, uint64_t faces)
{
    struct sizes sizes = sizes_of(mesh);
    for (uint32_t round = 0; round < rounds; round++) {
        uint64_t hexes = sizes.cells[HEX];
        sizes.vertices += edges + faces + hexes;
        edges = 2 * edges + 4 * faces + 6 * hexes;
        faces = 4 * faces + 12 * hexes;
        for (int d = SEGMENT; d <= HEX; d++)
            sizes.cells[d] <<= d;
    }
    return sizes;
}

static bool is_short(const struct lent *lent, const struct sizes *finished)
{
    return !fits(&lent->output, finished) || !fits(&lent->working, finished) ||
           lent->numbers32.len < 8 * finished->vertices || lent->numbers64_len < 3 * finished->vertices;
}

/* What checks 1 to 10 lead to: the edges and faces that the rounds start from, and the sizes that they end with. */
struct plan {
    uint64_t edges, faces;
    struct sizes finished;
};

/* Checks 1 to 10. No edge is counted for 0 rounds, since none is needed. */
static uint32_t make_plan(const struct tables *mesh, uint32_t rounds, struct scratch scratch, struct plan *plan)
{
    uint32_t refusal = plain_check_mesh(mesh, scratch, &plan->faces);
    if (refusal != 0 || rounds > 8)
        return refusal != 0 ? refusal : 9;
    if (rounds > 0)
        plan->edges = plain_count_edges(mesh, scratch);
    plan->finished = sizes_after(mesh, rounds, plan->edges, plan->faces);
    return out_of_range(&plan->finished) ? 10 : 0;
}

uint32_t plain_count_finished(const struct tables *mesh, uint32_t rounds, struct scratch scratch, struct sizes *finished)
{
    struct plan plan = { 0 };
    uint32_t refusal = make_plan(mesh, rounds, scratch, &plan);
    *finished = plan.finished;
    return refusal;
}

uint32_t plain_refine(const struct tables *mesh, uint32_t rounds, struct lent *lent, struct sizes *finished)
{
    struct plan plan = { 0 };
    uint32_t refusal = make_plan(mesh, rounds, lent->numbers32, &plan);
    *finished = plan.finished;
    if (refusal != 0 || is_short(lent, finished))
        return refusal != 0 ? refusal : 11;
    if (rounds == 0)
        copy_mesh(mesh, &lent->output);
    else
        run_rounds(mesh, rounds, plan.edges, plan.faces, lent);
    return 0;
}
