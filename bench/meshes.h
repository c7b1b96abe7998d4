/* Meshes for the bench. */
#ifndef MESHES_H
#define MESHES_H

#include "baseline.h"

/* A box of blocks, with or without quads on its shell. */
struct tables grid(uint32_t x, uint32_t y, uint32_t z, bool with_shell);

/* Blocks round one edge. */
struct tables hub(uint32_t blocks);

/* Blocks on one face. */
struct tables blocks_on_a_face(uint32_t blocks);

/* Segments from one vertex. */
struct tables star(uint32_t segments);

/* The same mesh under other vertex numbers, with its cells in another order. */
void relabel(struct tables *mesh);

/* Tables of zeros for so many entries. */
struct tables empty_tables(const struct sizes *sizes);

void free_tables(struct tables *tables);

#endif
