/* Tries both headers, as C and as C++: the version, the words of every refusal, and every function of mlca_tables.h on
   a cube with its faces as quads. Prints a line for each test; the last line is 'N passed, M failed'. */
#include "../include/mlca.h"
#include "../include/mlca_tables.h"

#include <stdio.h>
#include <stdlib.h>
#include <string.h>

static unsigned passed, failed;

static void expect(const char *what, int holds)
{
    printf("%s: %s\n", what, holds ? "holds" : "FAILED");
    passed += holds ? 1 : 0;
    failed += holds ? 0 : 1;
}

static const int32_t cube[24] = { 0, 0, 0, 8, 0, 0, 8, 8, 0, 0, 8, 0, 0, 0, 8, 8, 0, 8, 8, 8, 8, 0, 8, 8 };
static const int32_t far_cube[24] = { 536870912 };
static const uint32_t hex[16] = { 0, 1, 2, 3, 4, 5, 6, 7, 7, 6, 5, 4, 3, 2, 1, 0 };
static const uint32_t faces[24] = { 0, 1, 2, 3, 4, 5, 6, 7, 0, 1, 5, 4, 1, 2, 6, 5, 2, 3, 7, 6, 3, 0, 4, 7 };
static const uint32_t crossed[4] = { 0, 2, 1, 3 };
static const uint32_t folded[4] = { 0, 1, 2, 0 };
static const uint32_t beyond[2] = { 0, 8 };

static const mlca_mesh p9 = { cube, 24, hex, 8, faces, 24, NULL, 0, NULL, 0 };

/* ---- Version and words. */

static void try_version(void)
{
    expect("the header is of version 1.1.0", MLCA_VERSION == 10100);
    expect("major, minor and patch make the version",
           MLCA_VERSION_MAJOR == 1 && MLCA_VERSION_MINOR == 1 && MLCA_VERSION_PATCH == 0);
    expect("the archive is of the header's version", mlca_version() == MLCA_VERSION);
}

static void try_words(void)
{
    int different = 1, worded = 1;
    const char *unknown = mlca_refusal_words(17);
    for (uint32_t a = 0; a <= 16; a++) {
        worded &= strlen(mlca_refusal_words(a)) > 0 && strcmp(mlca_refusal_words(a), unknown) != 0;
        for (uint32_t b = 0; b < a; b++)
            different &= strcmp(mlca_refusal_words(a), mlca_refusal_words(b)) != 0;
    }
    expect("refusals 0 to 16 have words", worded);
    expect("no two refusals have the same words", different);
    expect("any other number has words too", strcmp(unknown, mlca_refusal_words(UINT32_MAX)) == 0);
    expect("a count is no refusal", mlca_refusal_of(0) == MLCA_ACCEPTED && mlca_refusal_of(16063) == MLCA_ACCEPTED);
    expect("a number below zero is one", mlca_refusal_of(-9) == MLCA_TOO_MANY_ROUNDS);
}

/* ---- Each refusal that a mesh can get: the mesh, the rounds, and how many numbers32 are missing. */

struct refused {
    mlca_mesh mesh;
    uint32_t rounds;
    size_t missing;
    uint32_t refusal;
};

static const struct refused refused[] = {
    { { cube, 24, hex, 8, faces, 24, NULL, 0, NULL, 0 }, 1, 0, MLCA_ACCEPTED },
    { { cube, 23, hex, 8, faces, 24, NULL, 0, NULL, 0 }, 1, 0, MLCA_PARTIAL_ENTRY },
    { { NULL, 0, hex, 8, faces, 24, NULL, 0, NULL, 0 }, 1, 0, MLCA_COUNT_OUT_OF_RANGE },
    { { far_cube, 24, hex, 8, faces, 24, NULL, 0, NULL, 0 }, 1, 0, MLCA_COORDINATE_OUT_OF_RANGE },
    { { cube, 24, hex, 8, faces, 24, beyond, 2, NULL, 0 }, 1, 0, MLCA_CORNER_OUT_OF_RANGE },
    { { cube, 24, hex, 8, folded, 4, NULL, 0, NULL, 0 }, 1, 0, MLCA_REPEATED_CORNER },
    { { cube, 24, hex, 16, faces, 24, NULL, 0, NULL, 0 }, 1, 0, MLCA_DUPLICATE_CELL },
    { { cube, 24, hex, 8, crossed, 4, NULL, 0, NULL, 0 }, 1, 0, MLCA_MISMATCHED_FACE },
    { { cube, 24, NULL, 0, faces, 4, NULL, 0, NULL, 0 }, 1, 0, MLCA_ISOLATED_VERTEX },
    { { cube, 24, hex, 8, faces, 24, NULL, 0, NULL, 0 }, 9, 0, MLCA_TOO_MANY_ROUNDS },
    { { cube, 24, hex, 8, faces, 24, NULL, 0, NULL, 0 }, 6, 0, MLCA_RESULT_TOO_LARGE },
    { { cube, 24, hex, 8, faces, 24, NULL, 0, NULL, 0 }, 1, 1, MLCA_SHORT_BUFFER },
};

/* Memory for one round of the cube: 27 vertices, 8 hexes, 24 quads. */
static const mlca_counts fine = { 27, 8, 24, 0, 0 };
static uint64_t output_memory[400], working_memory[2000];

static void try_refused(const struct refused *r)
{
    char what[120];
    mlca_output output = mlca_output_in(output_memory, fine);
    mlca_working working = mlca_working_in(working_memory, p9, fine);
    uint32_t early = r->refusal == MLCA_SHORT_BUFFER ? (uint32_t)MLCA_ACCEPTED : r->refusal;
    mlca_counts_answer finished = mlca_finished_counts_mesh(r->mesh, r->rounds, NULL, 0);
    working.numbers32_len = 8 * 27 - r->missing;
#ifdef SWAPPED
    /* Must not compile. */
    mlca_refine_mesh(r->mesh, r->rounds, working, output);
#endif
    mlca_counts_answer answer = mlca_refine_mesh(r->mesh, r->rounds, output, working);
    snprintf(what, sizeof what, "refusal %u (%s)", (unsigned)r->refusal, mlca_refusal_words(r->refusal));
    expect(what, answer.refusal == r->refusal && finished.refusal == early);
}

/* The segment from 0 to 8 as it is stored, byte by byte (rule 8.8), and changed. */
static void try_refused_files(void)
{
    uint8_t file[36] = { 16, 128, 0, 16, 0, 0, 0, 0, 0, 0, 32 };
    mlca_counts segment = { 2, 0, 0, 1, 0 };
    mlca_output output = mlca_output_in(output_memory, segment);
    file[27] = 64;
    file[35] = 32;
    expect("a stored segment", mlca_read_mesh(file, 36, output).refusal == MLCA_ACCEPTED && output.vertices[3] == 8 &&
                                   output.segments[1] == 1 && mlca_stored_bytes(segment) == 36);
    expect("a file cut short", mlca_read_mesh(file, 35, output).refusal == MLCA_WRONG_FILE_LENGTH);
    expect("a header cut short", mlca_stored_counts(file, 12).refusal == MLCA_WRONG_FILE_LENGTH &&
                                     mlca_stored_counts(file, 13).counts.segments == 1);
    file[35] = 33;
    expect("a filling bit that is 1", mlca_read_mesh(file, 36, output).refusal == MLCA_NONZERO_PADDING);
    file[0] = 17;
    expect("another index width", mlca_read_mesh(file, 36, output).refusal == MLCA_WRONG_INDEX_WIDTH &&
                                      mlca_stored_counts(file, 36).counts.segments == 1);
    file[0] = 32;
    expect("another form", mlca_read_mesh(file, 36, output).refusal == MLCA_UNKNOWN_FORM &&
                               mlca_stored_counts(file, 36).refusal == MLCA_UNKNOWN_FORM);
}

/* ---- The cube through every function. */

static int same_mesh(mlca_mesh a, mlca_mesh b)
{
    return a.vertices_len == b.vertices_len && a.hexes_len == b.hexes_len && a.quads_len == b.quads_len &&
           a.segments_len == b.segments_len && a.points_len == b.points_len &&
           memcmp(a.vertices, b.vertices, 4 * a.vertices_len) == 0 && memcmp(a.hexes, b.hexes, 4 * a.hexes_len) == 0 &&
           memcmp(a.quads, b.quads, 4 * a.quads_len) == 0;
}

static void try_files(void)
{
    static uint8_t stored[200];
    mlca_count_answer written = mlca_write_mesh(p9, stored, sizeof stored);
    mlca_counts_answer header = mlca_stored_counts(stored, 13);
    mlca_output output = mlca_output_in(output_memory, header.counts);
    mlca_counts_answer read = mlca_read_mesh(stored, written.count, output);
    expect("the counts in the header", header.refusal == 0 && header.counts.vertices == 8 && header.counts.hexes == 1 &&
                                           header.counts.quads == 6 && header.counts.points == 0);
    expect("bytes of the stored form", written.refusal == 0 && written.count == mlca_stored_bytes(header.counts));
    expect("a byte less is too short", mlca_write_mesh(p9, stored, written.count - 1).refusal == MLCA_SHORT_BUFFER);
    expect("read back", read.refusal == 0 && same_mesh(p9, mlca_mesh_of(output, read.counts)));
}

static void try_refining(void)
{
    static uint8_t stored[200], short_way[MLCA_STORED_BYTES], long_way[MLCA_STORED_BYTES];
    uint32_t numbers[500];
    size_t stored_len = mlca_write_mesh(p9, stored, sizeof stored).count;
    mlca_counts_answer finished = mlca_finished_counts_mesh(p9, 1, numbers, mlca_numbers_for_checks(p9));
    mlca_output output = mlca_output_in(output_memory, finished.counts);
    mlca_working working = mlca_working_in(working_memory, p9, finished.counts);
    mlca_counts_answer answer = mlca_refine_mesh(p9, 1, output, working);
    mlca_mesh refined = mlca_mesh_of(output, answer.counts);
    int64_t bytes = mlca_refine(stored, stored_len, 1, short_way, sizeof short_way);
    expect("finished counts", finished.refusal == 0 && memcmp(&finished.counts, &fine, sizeof fine) == 0);
    expect("refining answers them", memcmp(&answer, &finished, sizeof answer) == 0);
    expect("corner 0 goes to (1,1,1)",
           refined.vertices[0] == 1 && refined.vertices[1] == 1 && refined.vertices[2] == 1);
    size_t long_len = mlca_write_mesh(refined, long_way, sizeof long_way).count;
    expect("the short way gives the same", bytes == (int64_t)long_len && memcmp(short_way, long_way, long_len) == 0);
    expect("the corners of the cube are irregular", mlca_irregular_count_mesh(p9, NULL, 0).count == 8);
    expect("so they are in the stored mesh", mlca_irregular_count(stored, stored_len) == 8);
}

/* What is said to be enough is just enough for the tables, and all of it lies within the bytes that are asked for. */
static void try_lending(void)
{
    mlca_output output = mlca_output_in(output_memory, fine);
    mlca_working working = mlca_working_in(working_memory, p9, fine);
    uint32_t numbers[500];
    size_t enough = mlca_numbers_for_irregular_count(p9);
    expect("output tables fill their bytes",
           (char *)(output.points + output.points_len) == (char *)output_memory + mlca_output_bytes(fine) &&
               output.vertices_len == 3 * 27 && output.hexes_len == 8 * 8 && output.quads_len == 4 * 24);
    expect("working memory fills its bytes",
           (char *)(working.points + working.points_len) == (char *)working_memory + mlca_working_bytes(p9, fine) &&
               working.vertices_len == 3 * 27 && working.numbers64_len == 3 * 27);
    expect("numbers for the checks", mlca_numbers_for_checks(p9) == 1 + 48 + 16 * 6);
    expect("numbers32 for refining", working.numbers32_len == mlca_numbers32_for_refining(p9, fine) &&
                                         working.numbers32_len == mlca_greater(8 * 27, 1 + 48 + 16 * 6));
    expect("numbers for the irregular count", enough == 1 + 42 + 7 * 6);
    expect("the irregular count in them", mlca_irregular_count_mesh(p9, numbers, enough).count == 8);
}

static void try_millimetres(void)
{
    mlca_millimetres_answer answer = mlca_millimetres(1536, -1024, 0);
    expect("millimetres", answer.refusal == 0 && answer.position.x == 1.5 && answer.position.y == -1.0);
    expect("millimetres out of range", mlca_millimetres(0, 0, 536870912).refusal == MLCA_COORDINATE_OUT_OF_RANGE);
}

int main(void)
{
    try_version();
    try_words();
    for (size_t k = 0; k < sizeof refused / sizeof refused[0]; k++)
        try_refused(&refused[k]);
    try_refused_files();
    try_files();
    try_refining();
    try_lending();
    try_millimetres();
    printf("%u passed, %u failed\n", passed, failed);
    return failed != 0;
}
