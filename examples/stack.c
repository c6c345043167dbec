/*
 * Holds the calls to the stack that the header states: each runs on a thread whose whole stack has
 * FIBERGRAVEL_STACK bytes, above a page that ends the program where it is touched. Prints how many of
 * them each thread used, its own start included; the thread `nothing` makes no call. They get a tape of
 * the largest sizes that is made here, and then those of the files.
 *
 *     (cd crates/planner && rt lib)
 *     cc -Iinclude -pthread examples/stack.c crates/planner/out/libplanner.a -o stack
 *     ./stack TAPE...
 */
#define _GNU_SOURCE
#include <errno.h>
#include <pthread.h>
#include <string.h>
#include <sys/mman.h>
#include <unistd.h>

#include "io.h"

/* A stack is filled with this before its thread starts: the lowest byte that differs afterwards tells
   how far down the thread went. */
enum { PAINT = 0xa5 };

/* What the calls are lent. One byte more than any accepted tape has shows that a file is none. */
static uint8_t tape[FIBERGRAVEL_MOST_TAPE + 1];
static int32_t plan[FIBERGRAVEL_MOST_PLAN], multipliers[FIBERGRAVEL_MOST_MULTIPLIERS];
static int64_t numbers[FIBERGRAVEL_READ_LENGTH], references[FIBERGRAVEL_READ_REFERENCES_LENGTH];
static int64_t gap[FIBERGRAVEL_JUDGE_PLAN_LENGTH], report[FIBERGRAVEL_JUDGE_REPORT_LENGTH];
static int64_t ends[FIBERGRAVEL_RANGES_LENGTH], answer[FIBERGRAVEL_SOLVE_LENGTH];
static uint8_t laboratory[FIBERGRAVEL_LABORATORY_LENGTH], service[FIBERGRAVEL_MOST_SERVICE];
static int64_t kind[FIBERGRAVEL_RECORD_LENGTH], entry[FIBERGRAVEL_IMPORT_ENTRY_LENGTH];
static double leftover[FIBERGRAVEL_IMPORT_LEFTOVER_LENGTH];
static uint8_t model[FIBERGRAVEL_MOST_MODEL];
static int64_t residuals[FIBERGRAVEL_MOST_MULTIPLIERS];
static double pivots[FIBERGRAVEL_MOST_MULTIPLIERS], correction[FIBERGRAVEL_MOST_MULTIPLIERS];
static int64_t step[FIBERGRAVEL_READ_STEP_LENGTH], shown[FIBERGRAVEL_BANDED_CORRECTION_LENGTH];
static size_t tape_len, plan_len, multipliers_len, service_len;

/* A model of the largest sizes, near whole numbers. */
enum {
    N = FIBERGRAVEL_MOST_STATES,
    M = FIBERGRAVEL_MOST_INPUTS
};
static double a[N * N], b[N * M];

static void *nothing(void *unused)
{
    return unused;
}

static void *read_tape(void *unused)
{
    fibergravel_read(tape, tape_len, numbers);
    return unused;
}

static void *read_references(void *unused)
{
    fibergravel_read_references(tape, tape_len, references);
    return unused;
}

static void *read_step(void *unused)
{
    fibergravel_read_step(tape, tape_len, step);
    return unused;
}

static void *solve(void *unused)
{
    fibergravel_solve(tape, tape_len, plan, plan_len, multipliers, multipliers_len, answer);
    return unused;
}

static void *record(void *unused)
{
    fibergravel_record(tape, tape_len, laboratory, sizeof laboratory, service, service_len, kind);
    return unused;
}

static void *judge_plan(void *unused)
{
    fibergravel_judge_plan(tape, tape_len, plan, plan_len, multipliers, multipliers_len, gap);
    return unused;
}

static void *judge_report(void *unused)
{
    fibergravel_judge_report(tape, tape_len, plan, plan_len, multipliers, multipliers_len, report);
    return unused;
}

/* Reports a solved plan with its last number put off the model. */
static void *judge_fault(void *unused)
{
    size_t last = plan_len ? plan_len - 1 : 0;
    plan[last]++;
    judge_report(unused);
    plan[last]--;
    return unused;
}

static void *ranges(void *unused)
{
    fibergravel_ranges(tape, tape_len, plan, plan_len, multipliers, multipliers_len, ends);
    return unused;
}

static void *judge_multipliers(void *unused)
{
    fibergravel_judge_multipliers(tape, tape_len, multipliers, multipliers_len);
    return unused;
}

static void *banded_correction(void *unused)
{
    fibergravel_banded_correction(tape, tape_len, residuals, multipliers_len, pivots, multipliers_len, correction,
                                  multipliers_len, shown);
    return unused;
}

static void *import_entry(void *unused)
{
    fibergravel_import_entry(a[0], entry, leftover);
    return unused;
}

static void *import_model(void *unused)
{
    fibergravel_import_model(N, M, a, N * N, b, N * M, model, sizeof model);
    return unused;
}

static const struct {
    const char *name;
    void *(*body)(void *);
} threads[] = {
    { "nothing", nothing },
    { "read", read_tape },
    { "read_references", read_references },
    { "read_step", read_step },
    { "solve", solve },
    { "record", record },
    { "judge_plan", judge_plan },
    { "judge_report", judge_report },
    { "judge_fault", judge_fault },
    { "ranges", ranges },
    { "judge_multipliers", judge_multipliers },
    { "banded_correction", banded_correction },
    { "import_entry", import_entry },
    { "import_model", import_model },
};
enum { THREADS = sizeof threads / sizeof threads[0] };

/* The pthread calls answer an error's number. */
static void check(int error, const char *what)
{
    if (error) {
        errno = error;
        fail(what);
    }
}

/* Memory for a stack, above a page without any access. */
static uint8_t *stack_memory(void)
{
    size_t page = (size_t)sysconf(_SC_PAGESIZE);
    uint8_t *memory = mmap(NULL, page + FIBERGRAVEL_STACK, PROT_READ | PROT_WRITE, MAP_PRIVATE | MAP_ANONYMOUS, -1, 0);
    if (memory == MAP_FAILED)
        fail("mmap");
    if (mprotect(memory, page, PROT_NONE) != 0)
        fail("mprotect");
    return memory + page;
}

/* Runs a thread on the stack to its end, and gives how many bytes of the stack it used. */
static size_t bytes_used(uint8_t *stack, void *(*body)(void *))
{
    pthread_attr_t attributes;
    pthread_t thread;
    memset(stack, PAINT, FIBERGRAVEL_STACK);
    check(pthread_attr_init(&attributes), "pthread_attr_init");
    check(pthread_attr_setstack(&attributes, stack, FIBERGRAVEL_STACK), "pthread_attr_setstack");
    check(pthread_create(&thread, &attributes, body, NULL), "pthread_create");
    check(pthread_join(thread, NULL), "pthread_join");
    pthread_attr_destroy(&attributes);
    size_t unused = 0;
    while (unused < FIBERGRAVEL_STACK && stack[unused] == PAINT)
        unused++;
    return FIBERGRAVEL_STACK - unused;
}

/* Reads the tape in memory, and sets the lengths that it asks for. */
static void set_lengths(void)
{
    memset(numbers, 0, sizeof numbers);
    fibergravel_read(tape, tape_len, numbers);
    multipliers_len = (size_t)(numbers[FIBERGRAVEL_STEPS] * numbers[FIBERGRAVEL_STATES]);
    plan_len = multipliers_len + (size_t)(numbers[FIBERGRAVEL_STEPS] * numbers[FIBERGRAVEL_INPUTS]);
    service_len = FIBERGRAVEL_RECORD_PLAN + 4 * (plan_len + multipliers_len);
}

static void make_model(void)
{
    for (int i = 0; i < N * N; i++)
        a[i] = 0.1 * (i - N);
    for (int i = 0; i < N * M; i++)
        b[i] = 0.1 * (i - M);
}

/* The residuals of every row. */
static void make_residuals(void)
{
    for (int i = 0; i < FIBERGRAVEL_MOST_MULTIPLIERS; i++)
        residuals[i] = (i % 3 - 1) * (FIBERGRAVEL_MOST_RESIDUAL - i);
}

/* Adds bytes to the tape in memory. */
static void add(const uint8_t *bytes, size_t count)
{
    memcpy(tape + tape_len, bytes, count);
    tape_len += count;
}

/* Makes a tape of the largest sizes with command 51: each state is heated by the next one and by a heater,
   and starts at 100. Limits are -10,000 to 10,000, references 0 and weights 1. */
static void make_tape(void)
{
    add((uint8_t[]){ 0x10, N, M, FIBERGRAVEL_MOST_STEPS }, 4);
    for (uint8_t i = 0; i < N; i++) {
        add((uint8_t[]){ 0x20, i, i, 0x00, 0x08 }, 5);
        add((uint8_t[]){ 0x20, i, (uint8_t)((i + 1) % N), 0x00, 0x04 }, 5);
        add((uint8_t[]){ 0x21, i, i % M, 0x00, 0x04 }, 5);
        add((uint8_t[]){ 0x40, i, 100, 0 }, 4);
    }
    for (uint8_t c = 0; c < N + M; c++)
        add((uint8_t[]){ 0x30, c, 0xF0, 0xD8, 0x10, 0x27, 0, 0, 1 }, 9);
    /* g 1, R 1,000, T 10,000,000: proved in the second round. */
    add((uint8_t[]){ 0x51, 1, 0, 0xE8, 0x03, 0x80, 0x96, 0x98, 0x00, 0xFF }, 10);
}

/* Runs all threads on the tape in memory, and keeps the most that each has used. */
static void measure(uint8_t *stack, size_t most[])
{
    set_lengths();
    for (int t = 0; t < THREADS; t++) {
        size_t used = bytes_used(stack, threads[t].body);
        if (used > most[t])
            most[t] = used;
    }
}

int main(int argc, char **argv)
{
    uint8_t *stack = stack_memory();
    size_t most[THREADS] = { 0 };
    make_model();
    make_residuals();
    make_tape();
    measure(stack, most);
    for (int i = 1; i < argc; i++) {
        tape_len = read_bytes(argv[i], tape, sizeof tape);
        measure(stack, most);
    }
    printf("bytes of stack used, of %d:", FIBERGRAVEL_STACK);
    for (int t = 0; t < THREADS; t++)
        printf(" %s %zu", threads[t].name, most[t]);
    printf("\n");
    return 0;
}
