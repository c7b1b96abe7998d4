/* Plays the viewer: loads a stored mesh, refines it through the archive, prints the finished counts and the position of
   each vertex in millimetres.

       viewer FILE ROUNDS

   Exit status: 0 refined, 1 refused (the number and its words go to standard error), 2 anything else. */
#include "../include/mlca_tables.h"

#include <errno.h>
#include <stdio.h>
#include <stdlib.h>
#include <string.h>

struct bytes {
    uint8_t *at;
    size_t len;
};

/* A mesh in one piece of memory. */
struct mesh {
    void *memory;
    mlca_mesh tables;
};

static void fail(const char *what, const char *why)
{
    fprintf(stderr, "viewer: %s: %s\n", what, why);
    exit(2);
}

static void stop_if_refused(uint32_t refusal)
{
    if (refusal == MLCA_ACCEPTED)
        return;
    fprintf(stderr, "refused %u: %s\n", (unsigned)refusal, mlca_refusal_words(refusal));
    exit(1);
}

/* Memory that may hold anything. */
static void *lend(size_t bytes)
{
    void *memory = malloc(bytes);
    if (memory == NULL)
        fail("memory", strerror(errno));
    return memory;
}

static struct bytes load(const char *name)
{
    struct bytes file = { NULL, 0 };
    FILE *stream = fopen(name, "rb");
    size_t got = 1;
    if (stream == NULL)
        fail(name, strerror(errno));
    while (got != 0) {
        uint8_t *more = realloc(file.at, file.len + 65536);
        if (more == NULL)
            fail(name, strerror(errno));
        file.at = more;
        got = fread(file.at + file.len, 1, 65536, stream);
        file.len += got;
    }
    if (ferror(stream))
        fail(name, "cannot be read");
    fclose(stream);
    return file;
}

/* Reads a stored mesh into tables for the counts of its header. */
static struct mesh read_mesh(struct bytes stored)
{
    mlca_counts_answer header = mlca_stored_counts(stored.at, stored.len);
    stop_if_refused(header.refusal);
    void *memory = lend(mlca_output_bytes(header.counts));
    mlca_output output = mlca_output_in(memory, header.counts);
    stop_if_refused(mlca_read_mesh(stored.at, stored.len, output).refusal);
    return (struct mesh){ memory, mlca_mesh_of(output, header.counts) };
}

/* How large a mesh will be, with as much working memory as makes the call quick. */
static mlca_counts finished_counts(mlca_mesh mesh, uint32_t rounds)
{
    size_t len = mlca_numbers_for_checks(mesh);
    uint32_t *numbers = lend(len * sizeof *numbers);
    mlca_counts_answer finished = mlca_finished_counts_mesh(mesh, rounds, numbers, len);
    free(numbers);
    stop_if_refused(finished.refusal);
    return finished.counts;
}

/* A mesh beyond the sizes of mlca_refine: by tables, with memory for the finished counts. */
static struct mesh refine_large(struct bytes stored, uint32_t rounds)
{
    struct mesh mesh = read_mesh(stored);
    mlca_counts finished = finished_counts(mesh.tables, rounds);
    void *memory = lend(mlca_output_bytes(finished)), *work = lend(mlca_working_bytes(mesh.tables, finished));
    mlca_output output = mlca_output_in(memory, finished);
    mlca_working working = mlca_working_in(work, mesh.tables, finished);
    stop_if_refused(mlca_refine_mesh(mesh.tables, rounds, output, working).refusal);
    free(work);
    free(mesh.memory);
    return (struct mesh){ memory, mlca_mesh_of(output, finished) };
}

/* The short way for small meshes. Its refusal 11 says that the file is in order but the mesh is not small. */
static struct mesh refine(struct bytes stored, uint32_t rounds)
{
    static uint8_t result[MLCA_STORED_BYTES];
    int64_t answer = mlca_refine(stored.at, stored.len, rounds, result, sizeof result);
    if (answer == -MLCA_SHORT_BUFFER)
        return refine_large(stored, rounds);
    stop_if_refused(mlca_refusal_of(answer));
    return read_mesh((struct bytes){ result, (size_t)answer });
}

static void print(mlca_mesh m)
{
    printf("%zu vertices, %zu hexes, %zu quads, %zu segments, %zu points\n", m.vertices_len / 3, m.hexes_len / 8,
           m.quads_len / 4, m.segments_len / 2, m.points_len);
    for (size_t v = 0; v < m.vertices_len / 3; v++) {
        const int32_t *at = m.vertices + 3 * v;
        mlca_millimetres_answer answer = mlca_millimetres(at[0], at[1], at[2]);
        stop_if_refused(answer.refusal);
        /* 16 digits show every position exactly. */
        printf("%zu: %.16g %.16g %.16g mm\n", v, answer.position.x, answer.position.y, answer.position.z);
    }
}

static uint32_t rounds_of(const char *text)
{
    char *end;
    errno = 0;
    unsigned long rounds = strtoul(text, &end, 10);
    if (errno != 0 || *end != 0 || text[0] < '0' || text[0] > '9' || rounds > UINT32_MAX)
        fail(text, "no count of rounds");
    return (uint32_t)rounds;
}

int main(int count, char **arguments)
{
    if (count != 3)
        fail("usage", "viewer FILE ROUNDS");
    uint32_t rounds = rounds_of(arguments[2]);
    struct bytes stored = load(arguments[1]);
    struct mesh finished = refine(stored, rounds);
    print(finished.tables);
    free(finished.memory);
    free(stored.at);
    return fflush(stdout) == 0 ? 0 : 2;
}
