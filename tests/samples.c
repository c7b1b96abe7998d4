/* Runs the samples of docs/SPECIFICATION.md, section 11, through the archive. One row a sample: the call, and what it
   must show. Prints a line for each with what came out; the last line is 'N passed, M failed'. What the archive does
   not show of a sample (P4's exact values, P6's remainder, P12's ranks) is proved of the rules, and tried in
   tests/kernel. */
#include "../include/mlca.h"

#include <stdarg.h>
#include <stdio.h>
#include <string.h>

#define V MLCA_STORED_VERTICES
#define C MLCA_STORED_CELLS

struct coordinates { const int32_t *at; size_t len; };
struct numbers { const uint32_t *at; size_t len; };

struct mesh {
    struct coordinates vertices;
    struct numbers hexes, quads, segments, points;
};

struct row;
typedef void show(const struct row *row);

/* A sample: its mesh, the rounds, the vertices whose positions are shown. */
struct row {
    const char *name;
    show *call;
    const struct mesh *mesh;
    uint32_t rounds;
    struct numbers vertices;
    const char *expected;
};

#define NUMBERS(type, ...) { (const type[]){ __VA_ARGS__ }, sizeof(const type[]){ __VA_ARGS__ } / sizeof(type) }
#define COORDINATES(...) NUMBERS(int32_t, __VA_ARGS__)
#define VERTICES(...) NUMBERS(uint32_t, __VA_ARGS__)
#define NONE { NULL, 0 }

#define SQUARE 0, 0, 0, 8, 0, 0, 8, 8, 0, 0, 8, 0
#define CUBE SQUARE, 0, 0, 8, 8, 0, 8, 8, 8, 8, 0, 8, 8
#define FACES 0, 1, 2, 3, 4, 5, 6, 7, 0, 1, 5, 4, 1, 2, 6, 5, 2, 3, 7, 6, 3, 0, 4, 7

static const int32_t zeros[3 * 257];

/* On one axis. */
static const struct mesh p1 = { .vertices = COORDINATES(0, 0, 0, 8, 0, 0), .segments = VERTICES(0, 1) };
static const struct mesh p2 = { .vertices = COORDINATES(0, 0, 0, 7, 0, 0), .segments = VERTICES(0, 1) };
static const struct mesh p3 = { .vertices = COORDINATES(0, 0, 0, -7, 0, 0), .segments = VERTICES(0, 1) };
static const struct mesh p5 = { .vertices = COORDINATES(0, 0, 0, 8, 0, 0), .segments = VERTICES(0, 1), .points = VERTICES(0, 1) };
static const struct mesh p6 = { .vertices = COORDINATES(0, 0, 0, 8, 0, 0, -8, 0, 0, 16, 0, 0),
                                .segments = VERTICES(0, 1, 0, 2, 0, 3) };
/* A quad, and a cube without and with its faces. */
static const struct mesh p7 = { .vertices = COORDINATES(SQUARE), .quads = VERTICES(0, 1, 2, 3) };
static const struct mesh p8 = { .vertices = COORDINATES(CUBE), .hexes = VERTICES(0, 1, 2, 3, 4, 5, 6, 7) };
static const struct mesh p9 = { .vertices = COORDINATES(CUBE), .hexes = VERTICES(0, 1, 2, 3, 4, 5, 6, 7), .quads = VERTICES(FACES) };
/* So many vertices and no cell, which writing takes. */
static const struct mesh of_1 = { .vertices = { zeros, 3 * 1 } }, of_2 = { .vertices = { zeros, 3 * 2 } };
static const struct mesh of_3 = { .vertices = { zeros, 3 * 3 } }, of_256 = { .vertices = { zeros, 3 * 256 } };
static const struct mesh of_257 = { .vertices = { zeros, 3 * 257 } };
/* At the ends of the range: a segment over all of it, without and with points at its ends; a point at the greatest
   coordinate; three hexes round an edge with every coordinate the least one. */
#define LEAST (-536870912)
#define GREATEST 536870911
#define LOW LEAST, LEAST, LEAST
static const struct mesh span = { .vertices = COORDINATES(LEAST, 0, 0, GREATEST, 0, 0), .segments = VERTICES(0, 1) };
static const struct mesh pinned = { .vertices = COORDINATES(LEAST, 0, 0, GREATEST, 0, 0), .segments = VERTICES(0, 1),
                                    .points = VERTICES(0, 1) };
static const struct mesh high = { .vertices = COORDINATES(GREATEST, 0, 0), .points = VERTICES(0) };
static const struct mesh low_hub = {
    .vertices = COORDINATES(LOW, LOW, LOW, LOW, LOW, LOW, LOW, LOW, LOW, LOW, LOW, LOW, LOW, LOW),
    .hexes = VERTICES(0, 1, 2, 3, 7, 8, 9, 10, 0, 3, 4, 5, 7, 10, 11, 12, 0, 5, 6, 1, 7, 12, 13, 8),
};
/* Run only. */
static const struct mesh point = { .vertices = COORDINATES(-3, 5, 536870911), .points = VERTICES(0) };
static const struct mesh far = { .vertices = COORDINATES(-3, 5, 536870912), .points = VERTICES(0) };
static const struct mesh corner_8 = { .vertices = COORDINATES(CUBE), .hexes = VERTICES(0, 1, 2, 3, 4, 5, 6, 8) };
static const struct mesh empty = { .points = NONE };

static show axis, positions, size, acceptance, irregular, width, millimetres, planned, header, version;

static const struct row rows[] = {
    { "P1: segment 0 to 8", axis, &p1, 1, NONE, "2, 6, 4" },
    { "P2: segment 0 to 7", axis, &p2, 1, NONE, "1, 5, 3" },
    { "P3: segment 0 to -7", axis, &p3, 1, NONE, "-2, -6, -4" },
    { "P4: P1 twice", axis, &p1, 2, NONE, "2, 5, 4, 3, 5" },
    { "P5: P1 with a point at each end", axis, &p5, 1, NONE, "0, 8, 4" },
    { "P6: segments from 0 to 8, -8 and 16: the vertex at 0", positions, &p6, 1, VERTICES(0), "(1,0,0)" },
    { "P7: quad: corner 0", positions, &p7, 1, VERTICES(0), "(2,2,0)" },
    { "P8: cube of side 8", size, &p8, 1, NONE, "27 vertices, 8 hexes" },
    { "P8: corner 0, midpoint of 01", positions, &p8, 1, VERTICES(0, 8), "(2,2,2)(4,2,2)" },
    { "P9: P8 with its faces: corners 0 and 6, midpoint of 01", positions, &p9, 1, VERTICES(0, 6, 8), "(1,1,1)(6,6,6)(4,1,1)" },
    { "P10: P8 twice", size, &p8, 2, NONE, "125 vertices, 64 hexes" },
    { "P11: 1 vertex", width, &of_1, 0, NONE, "width 1" },
    { "P11: 2 vertices", width, &of_2, 0, NONE, "width 1" },
    { "P11: 3 vertices", width, &of_3, 0, NONE, "width 2" },
    { "P11: 256 vertices", width, &of_256, 0, NONE, "width 8" },
    { "P11: 257 vertices", width, &of_257, 0, NONE, "width 9" },
    { "a lone point through 8 rounds", positions, &point, 8, VERTICES(0), "(-3,5,536870911)" },
    { "a lone point through 8 rounds", size, &point, 8, NONE, "1 vertices, 0 hexes" },
    { "8 rounds", acceptance, &p1, 8, NONE, "accepted" },
    { "9 rounds", acceptance, &p1, 9, NONE, "refused 9" },
    { "coordinate 536,870,911", acceptance, &point, 1, NONE, "accepted" },
    { "coordinate 536,870,912", acceptance, &far, 1, NONE, "refused 3" },
    { "the whole range: a segment", axis, &span, 1, NONE, "-268435457, 268435455, -1" },
    { "the whole range: a segment with a point at each end", axis, &pinned, 1, NONE, "-536870912, 536870911, -1" },
    { "the whole range: a segment through 8 rounds", acceptance, &span, 8, NONE, "accepted" },
    { "the greatest coordinate through 8 rounds", axis, &high, 8, NONE, "536870911" },
    { "a hub at the least coordinate: the hub, a midpoint, a hex", positions, &low_hub, 1, VERTICES(0, 14, 56),
      "(-536870912,-536870912,-536870912)(-536870912,-536870912,-536870912)(-536870912,-536870912,-536870912)" },
    { "a hub at the least coordinate, twice", acceptance, &low_hub, 2, NONE, "accepted" },
    { "536,870,911 in millimetres", millimetres, &point, 0, NONE, "accepted" },
    { "536,870,912 in millimetres", millimetres, &far, 0, NONE, "refused 3" },
    { "corner 7 of 8 vertices", acceptance, &p8, 1, NONE, "accepted" },
    { "corner 8 of 8 vertices", acceptance, &corner_8, 1, NONE, "refused 4" },
    { "irregular count of P1", irregular, &p1, 0, NONE, "2" },
    { "irregular count of P5", irregular, &p5, 0, NONE, "0" },
    { "empty vertex tables, refining", acceptance, &empty, 1, NONE, "refused 2" },
    { "empty vertex tables, irregular count", irregular, &empty, 0, NONE, "refused 2" },
    { "empty vertex tables, writing", width, &empty, 0, NONE, "refused 2" },
    { "finished counts of P8", planned, &p8, 1, NONE, "27 vertices, 8 hexes, 0 quads, 0 segments, 0 points" },
    { "finished counts of P9", planned, &p9, 1, NONE, "27 vertices, 8 hexes, 24 quads, 0 segments, 0 points" },
    { "finished counts of P10", planned, &p8, 2, NONE, "125 vertices, 64 hexes, 0 quads, 0 segments, 0 points" },
    { "finished counts, 8 rounds of P5", planned, &p5, 8, NONE,
      "257 vertices, 0 hexes, 0 quads, 256 segments, 2 points" },
    { "finished counts, 5 rounds of P8", planned, &p8, 5, NONE,
      "35937 vertices, 32768 hexes, 0 quads, 0 segments, 0 points" },
    { "finished counts, 6 rounds of P8", planned, &p8, 6, NONE, "refused 10" },
    { "finished counts, 9 rounds", planned, &p1, 9, NONE, "refused 9" },
    { "finished counts, corner 8 of 8 vertices", planned, &corner_8, 9, NONE, "refused 4" },
    { "finished counts, empty vertex tables", planned, &empty, 9, NONE, "refused 2" },
    { "counts in the header of P9", header, &p9, 0, NONE, "8 vertices, 1 hexes, 6 quads, 0 segments, 0 points" },
    { "counts in the header of P5", header, &p5, 0, NONE, "2 vertices, 0 hexes, 0 quads, 1 segments, 2 points" },
    { "counts in the header of 257 vertices", header, &of_257, 0, NONE,
      "257 vertices, 0 hexes, 0 quads, 0 segments, 0 points" },
    { "the version", version, NULL, 0, NONE, "10100" },
};

/* What the last call showed. */
static char text[4000];

static void say(const char *format, ...)
{
    size_t used = strlen(text);
    va_list arguments;
    va_start(arguments, format);
    vsnprintf(text + used, sizeof text - used, format, arguments);
    va_end(arguments);
}

#define TABLES(m) \
    (m)->vertices.at, (m)->vertices.len, (m)->hexes.at, (m)->hexes.len, (m)->quads.at, (m)->quads.len, \
    (m)->segments.at, (m)->segments.len, (m)->points.at, (m)->points.len

/* The finished vertices, after `refined`. */
static int32_t finished[3 * V];

/* Refines into tables of the fixed sizes. Says a refusal. */
static mlca_counts_answer refined(const struct row *row)
{
    static uint32_t hexes[8 * C], quads[4 * C], segments[2 * C], points[C], numbers32[8 * V];
    static int32_t working_vertices[3 * V];
    static uint32_t working_hexes[8 * C], working_quads[4 * C], working_segments[2 * C], working_points[C];
    static uint64_t numbers64[3 * V];
    mlca_counts_answer answer = mlca_refine_tables(
        TABLES(row->mesh), row->rounds, finished, 3 * V, hexes, 8 * C, quads, 4 * C, segments, 2 * C, points, C,
        working_vertices, 3 * V, working_hexes, 8 * C, working_quads, 4 * C, working_segments, 2 * C, working_points, C,
        numbers32, 8 * V, numbers64, 3 * V);
    if (answer.refusal != 0)
        say("refused %u", (unsigned)answer.refusal);
    return answer;
}

static void axis(const struct row *row)
{
    mlca_counts counts = refined(row).counts;
    for (uint32_t v = 0; v < counts.vertices; v++) {
        const int32_t *at = finished + 3 * v;
        say(v == 0 ? "%d" : ", %d", (int)at[0]);
        if (at[1] != 0 || at[2] != 0)
            say(" off the axis");
    }
}

static void positions(const struct row *row)
{
    mlca_counts counts = refined(row).counts;
    for (size_t k = 0; k < row->vertices.len && row->vertices.at[k] < counts.vertices; k++) {
        const int32_t *at = finished + 3 * row->vertices.at[k];
        say("(%d,%d,%d)", (int)at[0], (int)at[1], (int)at[2]);
    }
}

static void size(const struct row *row)
{
    mlca_counts_answer answer = refined(row);
    if (answer.refusal == 0)
        say("%u vertices, %u hexes", (unsigned)answer.counts.vertices, (unsigned)answer.counts.hexes);
}

static void acceptance(const struct row *row)
{
    if (refined(row).refusal == 0)
        say("accepted");
}

static void irregular(const struct row *row)
{
    uint32_t numbers[64];
    mlca_count_answer answer = mlca_irregular_count_tables(TABLES(row->mesh), numbers, 64);
    if (answer.refusal != 0)
        say("refused %u", (unsigned)answer.refusal);
    else
        say("%llu", (unsigned long long)answer.count);
}

/* The index width: bits 4 to 8 of the stored form. What was written must be read back. */
static void width(const struct row *row)
{
    static uint8_t stored[MLCA_STORED_BYTES];
    static int32_t vertices[3 * V];
    mlca_count_answer written = mlca_write_tables(TABLES(row->mesh), stored, sizeof stored);
    if (written.refusal != 0) {
        say("refused %u", (unsigned)written.refusal);
        return;
    }
    say("width %d", (stored[0] & 15) << 1 | stored[1] >> 7);
    mlca_counts_answer read = mlca_read_tables(stored, (size_t)written.count, vertices, 3 * V, NULL, 0, NULL, 0, NULL, 0, NULL, 0);
    if (read.refusal != 0 || 3 * read.counts.vertices != row->mesh->vertices.len)
        say(", not read back");
}

static void say_counts(mlca_counts_answer answer)
{
    const mlca_counts *c = &answer.counts;
    if (answer.refusal != 0)
        say("refused %u", (unsigned)answer.refusal);
    else
        say("%u vertices, %u hexes, %u quads, %u segments, %u points", (unsigned)c->vertices, (unsigned)c->hexes,
            (unsigned)c->quads, (unsigned)c->segments, (unsigned)c->points);
}

/* The working numbers have to be zero at the end. */
static void planned(const struct row *row)
{
    uint32_t numbers[64];
    memset(numbers, 7, sizeof numbers);
    say_counts(mlca_finished_counts(TABLES(row->mesh), row->rounds, numbers, 64));
    for (size_t k = 0; k < 64; k++)
        if (numbers[k] != 0)
            say(", number %zu is not zero", k);
}

/* From the first 13 bytes of the stored form; 12 have to be too few. */
static void header(const struct row *row)
{
    static uint8_t stored[MLCA_STORED_BYTES];
    mlca_write_tables(TABLES(row->mesh), stored, sizeof stored);
    say_counts(mlca_stored_counts(stored, 13));
    if (mlca_stored_counts(stored, 12).refusal != MLCA_WRONG_FILE_LENGTH)
        say(", and 12 bytes are enough");
}

static void version(const struct row *row)
{
    (void)row;
    say("%u", (unsigned)mlca_version());
}

static void millimetres(const struct row *row)
{
    const int32_t *at = row->mesh->vertices.at;
    mlca_millimetres_answer answer = mlca_millimetres(at[0], at[1], at[2]);
    if (answer.refusal != 0)
        say("refused %u", (unsigned)answer.refusal);
    else
        say(answer.position.z * 1024 == at[2] ? "accepted" : "%.17g", answer.position.z);
}

int main(void)
{
    unsigned passed = 0, failed = 0;
    for (size_t k = 0; k < sizeof rows / sizeof rows[0]; k++) {
        text[0] = 0;
        rows[k].call(&rows[k]);
        printf("%s: %s", rows[k].name, text);
        if (strcmp(text, rows[k].expected) == 0) {
            printf("\n");
            passed++;
        } else {
            printf("; FAILED, expected %s\n", rows[k].expected);
            failed++;
        }
    }
    printf("%u passed, %u failed\n", passed, failed);
    return failed != 0;
}
