/* Meshes for the bench, from fixed seeds. */
#include "meshes.h"

#include <stdio.h>
#include <stdlib.h>
#include <string.h>

static void *zeros(size_t count, size_t size)
{
    void *memory = calloc(count ? count : 1, size);
    if (memory == NULL) {
        fprintf(stderr, "no memory\n");
        exit(2);
    }
    return memory;
}

struct tables empty_tables(const struct sizes *s)
{
    struct tables t = { zeros(3 * s->vertices, sizeof(int32_t)), 3 * s->vertices, { 0 }, { 0 } };
    for (int d = POINT; d <= HEX; d++) {
        t.cells_len[d] = s->cells[d] << d;
        t.cells[d] = zeros(t.cells_len[d], sizeof(uint32_t));
    }
    return t;
}

void free_tables(struct tables *t)
{
    free(t->vertices);
    for (int d = POINT; d <= HEX; d++)
        free(t->cells[d]);
}

static uint64_t next_random(void)
{
    static uint64_t state = 1;
    uint64_t mixed = state += 0x9E3779B97F4A7C15u;
    mixed = (mixed ^ mixed >> 30) * 0xBF58476D1CE4E5B9u;
    mixed = (mixed ^ mixed >> 27) * 0x94D049BB133111EBu;
    return mixed ^ mixed >> 31;
}

static void place(struct tables *t, uint32_t vertex, int32_t x, int32_t y, int32_t z)
{
    int32_t *position = t->vertices + 3 * (size_t)vertex;
    position[0] = x;
    position[1] = y;
    position[2] = z;
}

/* A lattice with x fastest. */
struct lattice {
    uint32_t x, y, z;
};

static uint32_t node(struct lattice l, uint32_t x, uint32_t y, uint32_t z)
{
    return (z * (l.y + 1) + y) * (l.x + 1) + x;
}

static void fill_hexes(struct tables *t, struct lattice l)
{
    uint32_t *hex = t->cells[HEX];
    for (uint32_t z = 0; z < l.z; z++)
        for (uint32_t y = 0; y < l.y; y++)
            for (uint32_t x = 0; x < l.x; x++)
                for (uint32_t up = 0; up < 2; up++) {
                    *hex++ = node(l, x, y, z + up);
                    *hex++ = node(l, x + 1, y, z + up);
                    *hex++ = node(l, x + 1, y + 1, z + up);
                    *hex++ = node(l, x, y + 1, z + up);
                }
}

static uint32_t *put_quad(uint32_t *quad, uint32_t a, uint32_t b, uint32_t c, uint32_t d)
{
    const uint32_t corners[4] = { a, b, c, d };
    memcpy(quad, corners, sizeof corners);
    return quad + 4;
}

static void fill_shell(struct tables *t, struct lattice l)
{
    uint32_t *quad = t->cells[QUAD];
    for (uint32_t z = 0; z <= l.z; z += l.z)
        for (uint32_t y = 0; y < l.y; y++)
            for (uint32_t x = 0; x < l.x; x++)
                quad = put_quad(quad, node(l, x, y, z), node(l, x + 1, y, z),
                                node(l, x + 1, y + 1, z), node(l, x, y + 1, z));
    for (uint32_t y = 0; y <= l.y; y += l.y)
        for (uint32_t z = 0; z < l.z; z++)
            for (uint32_t x = 0; x < l.x; x++)
                quad = put_quad(quad, node(l, x, y, z), node(l, x + 1, y, z),
                                node(l, x + 1, y, z + 1), node(l, x, y, z + 1));
    for (uint32_t x = 0; x <= l.x; x += l.x)
        for (uint32_t z = 0; z < l.z; z++)
            for (uint32_t y = 0; y < l.y; y++)
                quad = put_quad(quad, node(l, x, y, z), node(l, x, y + 1, z),
                                node(l, x, y + 1, z + 1), node(l, x, y, z + 1));
}

struct tables grid(uint32_t x, uint32_t y, uint32_t z, bool with_shell)
{
    struct lattice l = { x, y, z };
    struct sizes s = { (uint64_t)(x + 1) * (y + 1) * (z + 1), { 0 } };
    s.cells[HEX] = (uint64_t)x * y * z;
    s.cells[QUAD] = with_shell ? 2 * ((uint64_t)x * y + (uint64_t)y * z + (uint64_t)z * x) : 0;
    struct tables t = empty_tables(&s);
    for (uint32_t k = 0; k <= z; k++)
        for (uint32_t j = 0; j <= y; j++)
            for (uint32_t i = 0; i <= x; i++)
                place(&t, node(l, i, j, k), (int32_t)(1024 * i + next_random() % 301), (int32_t)(1024 * j) - 5001,
                      (int32_t)(7 * j) - (int32_t)(1024 * k));
    fill_hexes(&t, l);
    if (with_shell)
        fill_shell(&t, l);
    return t;
}

struct tables hub(uint32_t blocks)
{
    uint32_t ring = 2 * blocks, layer = 1 + ring;
    struct sizes s = { 2 * (uint64_t)layer, { 0 } };
    s.cells[HEX] = blocks;
    struct tables t = empty_tables(&s);
    for (uint32_t vertex = 0; vertex < 2 * layer; vertex++)
        place(&t, vertex, (int32_t)(next_random() % 200000) - 100000, (int32_t)vertex, vertex < layer ? 0 : 10240);
    for (uint32_t block = 0; block < blocks; block++)
        for (uint32_t up = 0; up < 2; up++) {
            uint32_t *corner = t.cells[HEX] + 8 * (size_t)block + 4 * up;
            corner[0] = up * layer;
            for (uint32_t step = 0; step < 3; step++)
                corner[1 + step] = up * layer + 1 + (2 * block + step) % ring;
        }
    return t;
}

struct tables blocks_on_a_face(uint32_t blocks)
{
    struct sizes s = { 4 + 4 * (uint64_t)blocks, { 0 } };
    s.cells[HEX] = blocks;
    struct tables t = empty_tables(&s);
    for (uint32_t vertex = 0; vertex < s.vertices; vertex++)
        place(&t, vertex, (int32_t)(next_random() % 9999) - 5000, (int32_t)vertex, -(int32_t)(vertex % 1000));
    for (uint32_t block = 0; block < blocks; block++)
        for (uint32_t corner = 0; corner < 4; corner++) {
            t.cells[HEX][8 * (size_t)block + corner] = corner;
            t.cells[HEX][8 * (size_t)block + 4 + corner] = 4 + 4 * block + corner;
        }
    return t;
}

struct tables star(uint32_t segments)
{
    struct sizes s = { 1 + (uint64_t)segments, { 0 } };
    s.cells[SEGMENT] = segments;
    struct tables t = empty_tables(&s);
    for (uint32_t vertex = 1; vertex <= segments; vertex++) {
        place(&t, vertex, (int32_t)(next_random() % 9999) - 5000, (int32_t)vertex, -(int32_t)(vertex % 1000));
        t.cells[SEGMENT][2 * (size_t)vertex - 1] = vertex;
    }
    return t;
}

static void shuffle_rows(uint32_t *cells, size_t count, size_t corners)
{
    for (size_t last = count; last > 1; last--) {
        uint32_t held[8], *a = cells + (last - 1) * corners, *b = cells + next_random() % last * corners;
        memcpy(held, a, corners * sizeof *held);
        memmove(a, b, corners * sizeof *held);
        memcpy(b, held, corners * sizeof *held);
    }
}

void relabel(struct tables *t)
{
    size_t count = t->vertices_len / 3;
    uint32_t *numbers = zeros(count, sizeof *numbers);
    int32_t *vertices = zeros(3 * count, sizeof *vertices);
    for (size_t i = 0; i < count; i++)
        numbers[i] = (uint32_t)i;
    shuffle_rows(numbers, count, 1);
    for (size_t i = 0; i < count; i++)
        memcpy(vertices + 3 * (size_t)numbers[i], t->vertices + 3 * i, 3 * sizeof *vertices);
    memcpy(t->vertices, vertices, 3 * count * sizeof *vertices);
    for (int d = POINT; d <= HEX; d++) {
        for (size_t i = 0; i < t->cells_len[d]; i++)
            t->cells[d][i] = numbers[t->cells[d][i]];
        shuffle_rows(t->cells[d], t->cells_len[d] >> d, (size_t)1 << d);
    }
    free(numbers);
    free(vertices);
}
