/* Makes a hex mesh from nothing, a block of 2 by 2 by 2 hexes of 10 mm, with its shell, its sharp edges and its corners
   as creases; refines it by 2 rounds and prints counts and volume. Then the same with the hexes alone: it shrinks. */
#include "../include/mlca_tables.h"

#include <stdio.h>
#include <stdlib.h>

enum {
    SIDE = 2,           /* hexes along each axis */
    NODES = SIDE + 1,   /* vertices along each axis */
    UNITS = 10 * 1024,  /* the side of a hex, in 1/1024 mm */
    ROUNDS = 2
};

struct block {
    int32_t vertices[3 * NODES * NODES * NODES];
    uint32_t hexes[8 * SIDE * SIDE * SIDE], quads[4 * 6 * SIDE * SIDE], segments[2 * 12 * SIDE], points[8];
};

/* The vertex at a place of the lattice; the first axis runs fastest. */
static uint32_t vertex_at(const uint32_t place[3])
{
    return (place[2] * NODES + place[1]) * NODES + place[0];
}

/* The corners round the square that two axes span from a place. */
static void go_round(const uint32_t place[3], int first, int second, uint32_t corners[4])
{
    for (int k = 0; k < 4; k++) {
        uint32_t corner[3] = { place[0], place[1], place[2] };
        corner[first] += k == 1 || k == 2;
        corner[second] += k >= 2;
        corners[k] = vertex_at(corner);
    }
}

static void place_vertices(struct block *b)
{
    for (uint32_t v = 0; v < NODES * NODES * NODES; v++) {
        b->vertices[3 * v] = (int32_t)(v % NODES) * UNITS;
        b->vertices[3 * v + 1] = (int32_t)(v / NODES % NODES) * UNITS;
        b->vertices[3 * v + 2] = (int32_t)(v / (NODES * NODES)) * UNITS;
    }
}

/* The bottom of each hex going round, then its top. */
static void add_hexes(struct block *b)
{
    for (uint32_t h = 0; h < SIDE * SIDE * SIDE; h++) {
        uint32_t bottom[3] = { h % SIDE, h / SIDE % SIDE, h / (SIDE * SIDE) };
        uint32_t top[3] = { bottom[0], bottom[1], bottom[2] + 1 };
        go_round(bottom, 0, 1, b->hexes + 8 * h);
        go_round(top, 0, 1, b->hexes + 8 * h + 4);
    }
}

/* The whole shell: on each axis the two outer sides, square by square. */
static void add_shell(struct block *b)
{
    uint32_t *quad = b->quads;
    for (int axis = 0; axis < 3; axis++)
        for (uint32_t k = 0; k < 2 * SIDE * SIDE; k++, quad += 4) {
            uint32_t place[3];
            place[axis] = k % 2 * SIDE;
            place[(axis + 1) % 3] = k / 2 % SIDE;
            place[(axis + 2) % 3] = k / 2 / SIDE;
            go_round(place, (axis + 1) % 3, (axis + 2) % 3, quad);
        }
}

/* The twelve sharp edges, four along each axis, piece by piece; and the eight corners. */
static void add_edges_and_corners(struct block *b)
{
    uint32_t *segment = b->segments;
    for (int axis = 0; axis < 3; axis++)
        for (uint32_t k = 0; k < 4 * SIDE; k++, segment += 2) {
            uint32_t place[3];
            place[axis] = k / 4;
            place[(axis + 1) % 3] = k % 2 * SIDE;
            place[(axis + 2) % 3] = k / 2 % 2 * SIDE;
            segment[0] = vertex_at(place);
            place[axis]++;
            segment[1] = vertex_at(place);
        }
    for (uint32_t k = 0; k < 8; k++) {
        uint32_t place[3] = { k % 2 * SIDE, k / 2 % 2 * SIDE, k / 4 * SIDE };
        b->points[k] = vertex_at(place);
    }
}

/* a . (b x c), of three vertices, in cubic millimetres. */
static double triple(const int32_t *a, const int32_t *b, const int32_t *c)
{
    double cross[3], units = 0;
    for (int k = 0; k < 3; k++) {
        int m = (k + 1) % 3, n = (k + 2) % 3;
        cross[k] = (double)b[m] * c[n] - (double)b[n] * c[m];
        units += a[k] * cross[k];
    }
    return units / (1024.0 * 1024 * 1024);
}

/* The volume inside the six faces of each hex, summed. A bent face counts as the mean of its two foldings. Seen from
   outside, the faces below all go round the same way. */
static double volume(mlca_mesh m)
{
    static const int faces[6][4] = { { 3, 2, 1, 0 }, { 4, 5, 6, 7 }, { 0, 1, 5, 4 },
                                     { 1, 2, 6, 5 }, { 2, 3, 7, 6 }, { 3, 0, 4, 7 } };
    double twelfths = 0;
    for (size_t h = 0; h < m.hexes_len; h += 8)
        for (int f = 0; f < 6; f++) {
            const int32_t *at[4];
            for (int k = 0; k < 4; k++)
                at[k] = m.vertices + 3 * (size_t)m.hexes[h + faces[f][k]];
            twelfths += triple(at[0], at[1], at[2]) + triple(at[0], at[2], at[3]);
            twelfths += triple(at[0], at[1], at[3]) + triple(at[1], at[2], at[3]);
        }
    return twelfths / 12;
}

static void print(const char *what, mlca_mesh m)
{
    printf("%s: %zu vertices, %zu hexes, %zu quads, %zu segments, %zu points; %.1f cubic mm\n", what,
           m.vertices_len / 3, m.hexes_len / 8, m.quads_len / 4, m.segments_len / 2, m.points_len, volume(m));
}

static void stop_if_refused(uint32_t refusal)
{
    if (refusal == MLCA_ACCEPTED)
        return;
    fprintf(stderr, "refused %u: %s\n", (unsigned)refusal, mlca_refusal_words(refusal));
    exit(1);
}

static void *lend(size_t bytes)
{
    void *memory = malloc(bytes);
    if (memory == NULL) {
        fprintf(stderr, "no memory\n");
        exit(2);
    }
    return memory;
}

/* The two calls: how large will it be, and, with as much memory as that says, refine. */
static void refine_and_print(const char *what, mlca_mesh mesh)
{
    mlca_counts_answer finished = mlca_finished_counts_mesh(mesh, ROUNDS, NULL, 0);
    stop_if_refused(finished.refusal);
    void *tables = lend(mlca_output_bytes(finished.counts)), *work = lend(mlca_working_bytes(mesh, finished.counts));
    mlca_output output = mlca_output_in(tables, finished.counts);
    mlca_working working = mlca_working_in(work, mesh, finished.counts);
    stop_if_refused(mlca_refine_mesh(mesh, ROUNDS, output, working).refusal);
    free(work);
    print(what, mlca_mesh_of(output, finished.counts));
    free(tables);
}

int main(void)
{
    static struct block b;
    place_vertices(&b);
    add_hexes(&b);
    add_shell(&b);
    add_edges_and_corners(&b);
    mlca_mesh block = { b.vertices, sizeof b.vertices / sizeof *b.vertices, b.hexes, sizeof b.hexes / sizeof *b.hexes,
                        b.quads, sizeof b.quads / sizeof *b.quads, b.segments, sizeof b.segments / sizeof *b.segments,
                        b.points, sizeof b.points / sizeof *b.points };
    mlca_mesh hexes = { b.vertices, block.vertices_len, b.hexes, block.hexes_len, NULL, 0, NULL, 0, NULL, 0 };
    print("the block", block);
    refine_and_print("after 2 rounds", block);
    refine_and_print("hexes alone, after 2 rounds", hexes);
    return fflush(stdout) == 0 ? 0 : 2;
}
