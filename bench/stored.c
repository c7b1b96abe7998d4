/* The stored form (section 8 of docs/SPECIFICATION.md) in plain C: fields through a 64-bit window. */
#include "baseline.h"

#include <string.h>

#define HEADER_BITS 101
#define HEADER_BYTES 13

static uint32_t width_of(uint64_t vertices)
{
    return vertices < 2 ? 1 : 32 - (uint32_t)__builtin_clz((uint32_t)vertices - 1);
}

static uint64_t bits_of(const struct sizes *s, uint32_t width)
{
    uint64_t corners = 8 * s->cells[HEX] + 4 * s->cells[QUAD] + 2 * s->cells[SEGMENT] + s->cells[POINT];
    return HEADER_BITS + 90 * s->vertices + width * corners;
}

/* The low `filled` bits of the window are read ahead and not yet used. */
struct reader {
    const uint8_t *next, *end;
    uint64_t window;
    uint32_t filled;
};

static struct reader reader_at(const uint8_t *bytes, size_t len, uint64_t bit)
{
    struct reader r = { bytes + bit / 8, bytes + len, 0, 0 };
    if (bit % 8 != 0) {
        r.window = *r.next++;
        r.filled = 8 - (uint32_t)(bit % 8);
    }
    return r;
}

/* A field of at most 30 bits. */
static inline uint32_t take(struct reader *r, uint32_t width)
{
    if (r->filled < width && r->end - r->next >= 4) {
        uint32_t four;
        memcpy(&four, r->next, 4);
        r->window = r->window << 32 | __builtin_bswap32(four);
        r->next += 4;
        r->filled += 32;
    }
    while (r->filled < width) {
        r->window = r->window << 8 | *r->next++;
        r->filled += 8;
    }
    r->filled -= width;
    return (uint32_t)(r->window >> r->filled) & ((1u << width) - 1);
}

/* The header's seven fields: 13 (under 13 bytes), 14, 2, or 0. The width is not judged. */
static uint32_t read_fields(const uint8_t *bytes, size_t len, struct sizes *sizes, uint32_t *width)
{
    if (len < HEADER_BYTES)
        return 13;
    struct reader r = reader_at(bytes, len, 0);
    if (take(&r, 4) != 1)
        return 14;
    *width = take(&r, 5);
    sizes->vertices = take(&r, 20);
    for (int d = HEX; d >= POINT; d--)
        sizes->cells[d] = take(&r, 18);
    return out_of_range(sizes) ? 2 : 0;
}

uint32_t plain_read_counts(const uint8_t *bytes, size_t len, struct sizes *sizes)
{
    uint32_t width;
    return read_fields(bytes, len, sizes, &width);
}

static uint32_t read_header(const uint8_t *bytes, size_t len, struct sizes *sizes, uint32_t *width)
{
    uint32_t refusal = read_fields(bytes, len, sizes, width);
    if (refusal != 0)
        return refusal;
    if (*width != width_of(sizes->vertices))
        return 15;
    uint64_t bits = bits_of(sizes, *width);
    if (len != (bits + 7) / 8)
        return 13;
    uint32_t spare = (uint32_t)(8 * len - bits);
    return bytes[len - 1] & ((1u << spare) - 1) ? 16 : 0;
}

static bool has_corner_out_of_range(const uint8_t *bytes, size_t len, const struct sizes *s, uint32_t width)
{
    bool outside = false;
    struct reader r = reader_at(bytes, len, HEADER_BITS + 90 * s->vertices);
    for (int d = HEX; d >= POINT; d--)
        for (uint64_t i = 0; i < s->cells[d] << d; i++)
            outside |= take(&r, width) >= s->vertices;
    return outside;
}

uint32_t plain_read_stored(const uint8_t *bytes, size_t len, struct tables *room, struct sizes *s)
{
    uint32_t width, refusal = read_header(bytes, len, s, &width);
    if (refusal != 0)
        return refusal;
    if (has_corner_out_of_range(bytes, len, s, width))
        return 4;
    if (!fits(room, s))
        return 11;
    struct reader r = reader_at(bytes, len, HEADER_BITS);
    for (uint64_t i = 0; i < 3 * s->vertices; i++)
        room->vertices[i] = (int32_t)(take(&r, 30) << 2) >> 2;
    for (int d = HEX; d >= POINT; d--)
        for (uint64_t i = 0; i < s->cells[d] << d; i++)
            room->cells[d][i] = take(&r, width);
    return 0;
}

/* The low `filled` bits of the window are not yet written. */
struct writer {
    uint8_t *next;
    uint64_t window;
    uint32_t filled;
};

static inline void put(struct writer *w, uint32_t value, uint32_t width)
{
    w->window = w->window << width | value;
    w->filled += width;
    if (w->filled >= 32) {
        w->filled -= 32;
        uint32_t four = __builtin_bswap32((uint32_t)(w->window >> w->filled));
        memcpy(w->next, &four, 4);
        w->next += 4;
    }
}

/* The last bits, then zero bits to a whole byte. */
static void finish(struct writer *w)
{
    while (w->filled >= 8) {
        w->filled -= 8;
        *w->next++ = (uint8_t)(w->window >> w->filled);
    }
    if (w->filled > 0)
        *w->next++ = (uint8_t)(w->window << (8 - w->filled));
}

uint32_t plain_write_stored(const struct tables *mesh, uint8_t *buffer, size_t len, uint64_t *written)
{
    uint32_t refusal = plain_check_tables(mesh);
    if (refusal != 0)
        return refusal;
    struct sizes s = sizes_of(mesh);
    uint32_t width = width_of(s.vertices);
    uint64_t bytes = (bits_of(&s, width) + 7) / 8;
    if (len < bytes)
        return 11;
    struct writer w = { buffer, 0, 0 };
    put(&w, 1, 4);
    put(&w, width, 5);
    put(&w, (uint32_t)s.vertices, 20);
    for (int d = HEX; d >= POINT; d--)
        put(&w, (uint32_t)s.cells[d], 18);
    for (size_t i = 0; i < mesh->vertices_len; i++)
        put(&w, (uint32_t)mesh->vertices[i] & 0x3FFFFFFF, 30);
    for (int d = HEX; d >= POINT; d--)
        for (size_t i = 0; i < mesh->cells_len[d]; i++)
            put(&w, mesh->cells[d][i], width);
    finish(&w);
    *written = bytes;
    return 0;
}
