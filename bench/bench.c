/* Times whole calls of the archive's kernel and of the plain C baseline on the same meshes, checks that the
   results agree, and prints both with their ratio. `bench 9 grid` takes the best of nine calls, and the rows whose
   names have `grid` in them. */
#define _POSIX_C_SOURCE 199309L
#include "entries.h"
#include "meshes.h"

#include <stdio.h>
#include <stdlib.h>
#include <string.h>
#include <time.h>

#ifdef WITHOUT_KERNEL
#define KERNELS 1
#define KERNEL(entry) NULL
#else
#define KERNELS 2
#define KERNEL(entry) mlca_##entry
#endif

static int calls = 5;
static const char *chosen = "";
static int disagreements;

static __typeof__(&baseline_refine_tables) const refine_tables[2] = { baseline_refine_tables, KERNEL(refine_tables) };
static __typeof__(&baseline_read_tables) const read_tables[2] = { baseline_read_tables, KERNEL(read_tables) };
static __typeof__(&baseline_write_tables) const write_tables[2] = { baseline_write_tables, KERNEL(write_tables) };
static __typeof__(&baseline_finished_counts) const count_finished[2] = { baseline_finished_counts,
                                                                         KERNEL(finished_counts) };
static __typeof__(&baseline_irregular_count_tables) const count_irregular[2] = { baseline_irregular_count_tables,
                                                                                  KERNEL(irregular_count_tables) };

#define SLICES(t) \
    (t).vertices, (t).vertices_len, (t).cells[HEX], (t).cells_len[HEX], (t).cells[QUAD], (t).cells_len[QUAD], \
    (t).cells[SEGMENT], (t).cells_len[SEGMENT], (t).cells[POINT], (t).cells_len[POINT]

/* The process's own time, so that other work on the machine does not count. */
static double now(void)
{
    struct timespec time;
    clock_gettime(CLOCK_PROCESS_CPUTIME_ID, &time);
    return (double)time.tv_sec * 1e9 + (double)time.tv_nsec;
}

static double least(double best, double time)
{
    return best == 0 || time < best ? time : best;
}

/* Nanoseconds for each hex of the mesh of these sizes: the finished mesh where there is refining, else the mesh given.
   Where it has no hexes, for each cell of its commonest kind. */
static void print_row(const char *name, uint32_t rounds, const struct sizes *s, const double best[2])
{
    uint64_t cells = s->cells[HEX];
    for (int d = POINT; d < HEX && s->cells[HEX] == 0; d++)
        cells = s->cells[d] > cells ? s->cells[d] : cells;
    printf("%-34s %2u %8llu %8llu %9.2f %8.1f", name, rounds, (unsigned long long)s->vertices,
           (unsigned long long)cells, best[0] / 1e6, best[0] / (double)cells);
    if (KERNELS == 2)
        printf(" %9.2f %8.1f %7.2f", best[1] / 1e6, best[1] / (double)cells, best[1] / best[0]);
    printf("\n");
    fflush(stdout);
}

static bool same_tables(const struct tables *a, const struct tables *b)
{
    bool same = memcmp(a->vertices, b->vertices, a->vertices_len * sizeof *a->vertices) == 0;
    for (int d = POINT; d <= HEX; d++)
        same &= memcmp(a->cells[d], b->cells[d], a->cells_len[d] * sizeof *a->cells[d]) == 0;
    return same;
}

static void note(bool agreed, const char *what, const char *name)
{
    if (!agreed) {
        printf("DISAGREE: %s, %s\n", what, name);
        disagreements++;
    }
}

/* The finished sizes, as the baseline counts them. */
static struct sizes finished_sizes(const struct tables *mesh, uint32_t rounds)
{
    size_t len = 8000000;
    struct scratch scratch = { malloc(len * sizeof(uint32_t)), len };
    struct sizes finished;
    note(plain_count_finished(mesh, rounds, scratch, &finished) == 0, "a mesh of the bench is refused", "");
    free(scratch.numbers);
    return finished;
}

static void bench_refining(const char *name, const struct tables *mesh, uint32_t rounds)
{
    struct sizes s = finished_sizes(mesh, rounds);
    struct tables output[2] = { empty_tables(&s), empty_tables(&s) }, working = empty_tables(&s);
    size_t len32 = 8 * s.vertices, len64 = 3 * s.vertices;
    uint32_t *numbers32 = calloc(len32, sizeof *numbers32);
    uint64_t *numbers64 = calloc(len64, sizeof *numbers64);
    double best[2] = { 0, 0 };
    for (int call = 0; call < calls; call++)
        for (int k = 0; k < KERNELS; k++) {
            double start = now();
            mlca_counts_answer answer = refine_tables[k](SLICES(*mesh), rounds, SLICES(output[k]), SLICES(working),
                                                         numbers32, len32, numbers64, len64);
            best[k] = least(best[k], now() - start);
            note(answer.refusal == 0 && answer.counts.vertices == s.vertices, "refining is refused", name);
        }
    note(KERNELS == 1 || same_tables(&output[0], &output[1]), "refining", name);
    print_row(name, rounds, &s, best);
    free(numbers32);
    free(numbers64);
    free_tables(&working);
    free_tables(&output[0]);
    free_tables(&output[1]);
}

static void bench_stored(const char *name, const struct tables *mesh)
{
    if (strstr(name, chosen) == NULL)
        return;
    struct sizes s = sizes_of(mesh);
    size_t room = 20 * 1000000;
    uint8_t *bytes[2] = { calloc(room, 1), calloc(room, 1) };
    struct tables tables[2] = { empty_tables(&s), empty_tables(&s) };
    double writing[2] = { 0, 0 }, reading[2] = { 0, 0 };
    char label[64];
    for (int call = 0; call < calls; call++)
        for (int k = 0; k < KERNELS; k++) {
            double start = now();
            mlca_count_answer written = write_tables[k](SLICES(*mesh), bytes[k], room);
            double middle = now();
            mlca_counts_answer read = read_tables[k](bytes[k], written.count, SLICES(tables[k]));
            reading[k] = least(reading[k], now() - middle);
            writing[k] = least(writing[k], middle - start);
            note(written.refusal == 0 && read.refusal == 0 && same_tables(mesh, &tables[k]), "read after write", name);
        }
    note(KERNELS == 1 || memcmp(bytes[0], bytes[1], room) == 0, "bytes", name);
    snprintf(label, sizeof label, "writing: %s", name);
    print_row(label, 0, &s, writing);
    snprintf(label, sizeof label, "reading: %s", name);
    print_row(label, 0, &s, reading);
    for (int k = 0; k < 2; k++) {
        free(bytes[k]);
        free_tables(&tables[k]);
    }
}

static bool same_counts(mlca_counts_answer a, mlca_counts_answer b)
{
    return memcmp(&a, &b, sizeof a) == 0;
}

/* Finished counts of one round with so many working numbers lent: the checks, and the edges and faces counted. */
static void bench_planning(const char *name, const struct tables *mesh, size_t len)
{
    if (strstr(name, chosen) == NULL)
        return;
    struct sizes s = sizes_of(mesh);
    uint32_t *numbers = malloc((len + 1) * sizeof *numbers);
    mlca_counts_answer answers[2] = { { 0 } };
    double best[2] = { 0, 0 };
    for (int call = 0; call < calls; call++)
        for (int k = 0; k < KERNELS; k++) {
            double start = now();
            answers[k] = count_finished[k](SLICES(*mesh), 1, numbers, len);
            best[k] = least(best[k], now() - start);
        }
    note(answers[0].refusal == 0 && (KERNELS == 1 || same_counts(answers[0], answers[1])), "finished counts", name);
    print_row(name, 1, &s, best);
    free(numbers);
}

/* Irregular counts with so many working numbers lent. */
static void bench_counting(const char *name, const struct tables *mesh, size_t len)
{
    if (strstr(name, chosen) == NULL)
        return;
    struct sizes s = sizes_of(mesh);
    uint32_t *numbers = malloc((len + 1) * sizeof *numbers);
    mlca_count_answer answers[2] = { { 0 } };
    double best[2] = { 0, 0 };
    for (int call = 0; call < calls; call++)
        for (int k = 0; k < KERNELS; k++) {
            double start = now();
            answers[k] = count_irregular[k](SLICES(*mesh), numbers, len);
            best[k] = least(best[k], now() - start);
        }
    note(answers[0].refusal == 0 && (KERNELS == 1 || answers[0].count == answers[1].count), "irregular count", name);
    print_row(name, 0, &s, best);
    free(numbers);
}

/* Takes the mesh over. */
static void refine_once(const char *name, struct tables mesh, uint32_t rounds, bool relabelled)
{
    if (relabelled)
        relabel(&mesh);
    if (strstr(name, chosen) != NULL)
        bench_refining(name, &mesh, rounds);
    free_tables(&mesh);
}

static void bench_grids(void)
{
    static const uint32_t sides[4][3] = { { 30, 32, 32 }, { 15, 16, 16 }, { 6, 8, 10 }, { 3, 4, 5 } };
    for (uint32_t rounds = 1; rounds <= 4; rounds++) {
        const uint32_t *n = sides[rounds - 1];
        refine_once("grid", grid(n[0], n[1], n[2], false), rounds, false);
        refine_once("grid with shell", grid(n[0], n[1], n[2], true), rounds, false);
    }
    refine_once("grid relabelled", grid(30, 32, 32, false), 1, true);
    refine_once("grid with shell relabelled", grid(30, 32, 32, true), 1, true);
    refine_once("grid with shell relabelled", grid(15, 16, 16, true), 2, true);
    for (uint32_t layers = 4; layers <= 32; layers *= 2)
        refine_once("grid of growing size", grid(30, 32, layers, false), 1, false);
    refine_once("grid copied", grid(62, 63, 63, true), 0, false);
}

static void bench_odd_shapes(void)
{
    refine_once("hub", hub(30750), 1, false);
    refine_once("hub relabelled", hub(30750), 1, true);
    refine_once("bar of 250,000 quads", grid(15624, 1, 1, true), 1, false);
    refine_once("bar of 250,000 quads", grid(3905, 1, 1, true), 2, false);
    refine_once("250,000 segments from a vertex", star(125000), 1, false);
    refine_once("250,000 segments from a vertex", star(976), 8, false);
    refine_once("31,250 hexes on a face", blocks_on_a_face(31250), 1, false);
    refine_once("31,250 hexes on a face, relabelled", blocks_on_a_face(31250), 1, true);
}

/* Enough is what include/mlca.h gives for near-linear time: under 1,650,000 numbers for the middle mesh. */
static void bench_counts(const struct tables *large, const struct tables *middle)
{
    bench_counting("irregular count: enough lent", large, 12000000);
    bench_counting("irregular count: enough lent", middle, 1500000);
    bench_counting("irregular count: a tenth lent", middle, 150000);
    bench_counting("irregular count: a hundredth lent", middle, 15000);
    bench_counting("irregular count: nothing lent", middle, 0);
    bench_planning("finished counts: enough lent", middle, 1650000);
    bench_planning("finished counts: a tenth lent", middle, 165000);
    bench_planning("finished counts: nothing lent", middle, 0);
}

int main(int count, char **words)
{
    struct tables large = grid(62, 63, 63, true), middle = grid(30, 32, 32, true), small = grid(6, 8, 10, true);
    calls = count > 1 ? atoi(words[1]) : calls;
    chosen = count > 2 ? words[2] : chosen;
    printf("%-34s %2s %8s %8s %9s %8s", "best of several whole calls", "n", "vertices", "cells", "C ms", "ns/cell");
    if (KERNELS == 2)
        printf(" %9s %8s %7s", "kernel ms", "ns/cell", "ratio");
    printf("\n");
    bench_grids();
    bench_odd_shapes();
    bench_stored("246,078 hexes with shell", &large);
    bench_stored("480 hexes with shell", &small);
    bench_counts(&large, &middle);
    free_tables(&large);
    free_tables(&middle);
    free_tables(&small);
    printf("%d disagreements\n", disagreements);
    return disagreements != 0;
}
