/* Holds the stack that each function of mlca.h takes against what mlca.h says. Each call is made in a thread of its
   own, whose stack is painted below the caller: what is no longer painted after the call was used. The arguments that
   the caller puts there count too. Prints the most that any call of a function used; the last line is
   'N passed, M failed'. */
#define _POSIX_C_SOURCE 200809L
#include "../bench/meshes.h"
#include "../include/mlca_tables.h"

#include <pthread.h>
#include <stdio.h>
#include <stdlib.h>
#include <string.h>

#define STACK (1 << 20)
#define PAINT 0xA5
/* So much below a local variable of the caller is left alone, since its own frame lies there. */
#define FRAME 512

/* One call: the mesh as tables and stored, the working numbers lent. */
struct call {
    mlca_mesh mesh;
    const uint8_t *stored;
    size_t stored_len;
    mlca_output output;
    mlca_working working;
    uint8_t *result;
    size_t result_len;
    size_t numbers_len;
};

typedef void make(const struct call *call);

static void refine(const struct call *call)
{
    mlca_refine(call->stored, call->stored_len, 1, call->result, call->result_len);
}

static void irregular_count(const struct call *call)
{
    mlca_irregular_count(call->stored, call->stored_len);
}

static void millimetres(const struct call *call)
{
    mlca_millimetres(1, 2, (int32_t)call->stored_len);
}

static void finished_counts(const struct call *call)
{
    mlca_finished_counts_mesh(call->mesh, 1, call->working.numbers32, call->numbers_len);
}

static void refine_tables(const struct call *call)
{
    mlca_working working = call->working;
    working.numbers32_len = call->numbers_len;
    mlca_refine_mesh(call->mesh, 1, call->output, working);
}

static void stored_counts(const struct call *call)
{
    mlca_stored_counts(call->stored, call->stored_len);
}

static void read_tables(const struct call *call)
{
    mlca_read_mesh(call->stored, call->stored_len, call->output);
}

static void write_tables(const struct call *call)
{
    mlca_write_mesh(call->mesh, call->result, call->result_len);
}

static void irregular_count_tables(const struct call *call)
{
    mlca_irregular_count_mesh(call->mesh, call->working.numbers32, call->numbers_len);
}

static void version(const struct call *call)
{
    (void)call;
    mlca_version();
}

/* A function, how many bytes of stack mlca.h says that it takes, and the most that were seen. */
struct row {
    const char *name;
    make *call;
    size_t said, most;
};

static struct row rows[] = {
    { "mlca_version", version, 2000, 0 },
    { "mlca_refine", refine, 210000, 0 },
    { "mlca_irregular_count", irregular_count, 80000, 0 },
    { "mlca_millimetres", millimetres, 2000, 0 },
    { "mlca_finished_counts", finished_counts, 70000, 0 },
    { "mlca_refine_tables", refine_tables, 70000, 0 },
    { "mlca_stored_counts", stored_counts, 2000, 0 },
    { "mlca_read_tables", read_tables, 2000, 0 },
    { "mlca_write_tables", write_tables, 2000, 0 },
    { "mlca_irregular_count_tables", irregular_count_tables, 70000, 0 },
};

static void *memory(size_t bytes)
{
    void *at = aligned_alloc(4096, (bytes + 4095) / 4096 * 4096 + 4096);
    if (at == NULL)
        exit(2);
    return memset(at, 0, bytes);
}

struct job {
    make *call;
    const struct call *with;
    volatile uint8_t *stack;
    size_t used;
};

/* Paints the stack below, makes the call and looks for the lowest byte that changed. The stack grows downward. */
static void *run(void *argument)
{
    struct job *job = argument;
    volatile uint8_t here = 0;
    size_t top = (size_t)((uintptr_t)&here - (uintptr_t)job->stack), at;
    for (at = 0; at < top - FRAME; at++)
        job->stack[at] = PAINT;
    job->call(job->with);
    for (at = 0; at < top - FRAME && job->stack[at] == PAINT;)
        at++;
    job->used = top - at;
    return NULL;
}

static size_t used(make *call, const struct call *with)
{
    static uint8_t *stack;
    struct job job = { call, with, NULL, 0 };
    pthread_attr_t attributes;
    pthread_t thread;
    job.stack = stack = stack != NULL ? stack : memory(STACK);
    pthread_attr_init(&attributes);
    if (pthread_attr_setstack(&attributes, stack, STACK) != 0 || pthread_create(&thread, &attributes, run, &job) != 0)
        exit(2);
    pthread_join(thread, NULL);
    pthread_attr_destroy(&attributes);
    return job.used;
}

/* Every function on one mesh, with so many working numbers lent. */
static void measure(struct call call, size_t numbers_len)
{
    call.numbers_len = numbers_len;
    for (size_t k = 0; k < sizeof rows / sizeof rows[0]; k++) {
        size_t bytes = used(rows[k].call, &call);
        rows[k].most = bytes > rows[k].most ? bytes : rows[k].most;
    }
}

/* A mesh as all functions take it, sound and then with one hex less and with a corner twice. Takes the mesh over. */
static void try_mesh(struct tables t)
{
    mlca_mesh mesh = { t.vertices, t.vertices_len, t.cells[HEX], t.cells_len[HEX], t.cells[QUAD], t.cells_len[QUAD],
                       t.cells[SEGMENT], t.cells_len[SEGMENT], t.cells[POINT], t.cells_len[POINT] };
    mlca_counts counts = mlca_finished_counts_mesh(mesh, 1, NULL, 0).counts;
    size_t room = mlca_stored_bytes(counts);
    void *output = memory(mlca_output_bytes(counts)), *working = memory(mlca_working_bytes(mesh, counts));
    uint8_t *stored = memory(room), *result = memory(room);
    struct call call = { mesh, stored, 0, mlca_output_in(output, counts), mlca_working_in(working, mesh, counts),
                         result, room, 0 };
    call.stored_len = mlca_write_mesh(mesh, stored, room).count;
    for (size_t shift = 0; shift < 64; shift += 4)
        measure(call, call.working.numbers32_len >> shift);
    call.mesh.hexes_len -= call.mesh.hexes_len > 8 ? 8 : 0;
    measure(call, 0);
    if (t.cells_len[HEX] > 0)
        t.cells[HEX][1] = t.cells[HEX][0];
    measure(call, 0);
    free(output);
    free(working);
    free(stored);
    free(result);
    free_tables(&t);
}

int main(void)
{
    unsigned passed = 0, failed = 0;
    try_mesh(grid(1, 1, 1, true));
    try_mesh(grid(2, 2, 2, true));
    try_mesh(grid(4, 4, 2, false));
    try_mesh(grid(12, 12, 12, true));
    try_mesh(star(120));
    try_mesh(star(3000));
    try_mesh(hub(12));
    try_mesh(hub(2000));
    try_mesh(blocks_on_a_face(2000));
    for (size_t k = 0; k < sizeof rows / sizeof rows[0]; k++) {
        int within = rows[k].most <= rows[k].said;
        printf("%s: %zu bytes of stack%s\n", rows[k].name, rows[k].most, within ? "" : "; FAILED, mlca.h says less");
        passed += within ? 1 : 0;
        failed += within ? 0 : 1;
    }
    printf("%u passed, %u failed\n", passed, failed);
    return failed != 0;
}
