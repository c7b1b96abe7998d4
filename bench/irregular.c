/* The irregular count (rule 9.11 of docs/SPECIFICATION.md) in plain C. */
#include "baseline.h"

#include <string.h>

/* Where less is lent, this much of the stack serves instead. */
#define LOCAL_NUMBERS 4096

/* A holding is 1 more than the rank in the top bits and the valence below; 0 before a cell is met. */
#define RANK_SHIFT 20
#define VALENCE_MASK ((1u << RANK_SHIFT) - 1)

/* Irregular vertices among those from `first` on, one number for each. */
static uint64_t count_among(const struct tables *m, uint64_t first, uint64_t count, uint32_t *holdings)
{
    uint64_t irregular = 0;
    memset(holdings, 0, count * sizeof *holdings);
    for (int d = POINT; d <= HEX; d++)
        for (size_t i = 0; i < m->cells_len[d]; i++) {
            uint64_t place = m->cells[d][i] - first;
            if (place >= count)
                continue;
            if (holdings[place] == 0)
                holdings[place] = (uint32_t)(d + 1) << RANK_SHIFT | 1;
            else if (holdings[place] >> RANK_SHIFT == (uint32_t)(d + 1))
                holdings[place]++;
        }
    for (uint64_t i = 0; i < count; i++)
        irregular += (holdings[i] & VALENCE_MASK) != 1u << ((holdings[i] >> RANK_SHIFT) - 1);
    return irregular;
}

uint64_t plain_count_irregular(const struct tables *m, struct scratch scratch)
{
    uint32_t local[LOCAL_NUMBERS];
    if (scratch.len < LOCAL_NUMBERS)
        scratch = (struct scratch){ local, LOCAL_NUMBERS };
    uint64_t vertices = m->vertices_len / 3, irregular = 0;
    for (uint64_t first = 0; first < vertices; first += scratch.len) {
        uint64_t left = vertices - first;
        irregular += count_among(m, first, left < scratch.len ? left : scratch.len, scratch.numbers);
    }
    return irregular;
}
