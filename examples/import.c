/*
 * Makes a tape from a model in floats, as an identification tool delivers it, and prints the tape's
 * firing slip as solve.c does. It is document 01's tape F: the state keeps its temperature, A = 1, and
 * a unit of duty adds half a tenth of a degree, B = 0.5. Other numbers may be given in their place.
 *
 *     (cd crates/planner && rt lib)
 *     cc -Iinclude examples/import.c crates/planner/out/libplanner.a -o import
 *     ./import [A B]
 *
 * Exit status: 0 where a slip was printed, whatever it says; 1 where none was; 2 for wrong arguments.
 */
#include <string.h>

#include "slip.h"

enum { N = 1, M = 1, MODEL_LENGTH = 5 * (N * N + N * M) };

static const uint8_t sizes[] = { 0x10, N, M, 1 };
static const uint8_t others[] = {
    0x30, 0, 0x18, 0xFC, 0xE8, 0x03, 0x6E, 0x00, 1,        /* the state: -1000 to 1000, r 110 */
    0x30, 1, 0x00, 0x00, 0x28, 0x00, 0x00, 0x00, 1,        /* the input: 0 to 40, r 0 */
    0x40, 0, 0x64, 0x00,                                   /* x(0) = 100 */
    0x50, 0x19, 0x00, 0x05, 0x00, 0x40, 0x9C, 0x00, 0x00,  /* g 25, R 5, T 40000 */
    0xFF,
};

static uint8_t tape[sizeof sizes + MODEL_LENGTH + sizeof others];

/* Writes the model's commands. An entry that cannot be imported ends the program. */
static void import(const double a[N * N], const double b[N * M], uint8_t *model)
{
    uint64_t code = fibergravel_import_model(N, M, a, N * N, b, N * M, model, MODEL_LENGTH);
    if (!code)
        return;
    uint64_t count = FIBERGRAVEL_CARRIED(code);
    const char *what = FIBERGRAVEL_REFUSAL(code) == FIBERGRAVEL_NOT_FINITE ? "not finite" : "too large";
    fprintf(stderr, "import: entry %" PRIu64 " of %s is %s\n", count < N * N ? count : count - N * N,
            count < N * N ? "A" : "B", what);
    exit(1);
}

/* The float that a text is. */
static double number(const char *text)
{
    char *end;
    double number = strtod(text, &end);
    if (end == text || *end) {
        fprintf(stderr, "import: %s is no number\n", text);
        exit(2);
    }
    return number;
}

int main(int argc, char **argv)
{
    double a[N * N] = { 1.0 }, b[N * M] = { 0.5 };
    if (argc == 3) {
        a[0] = number(argv[1]);
        b[0] = number(argv[2]);
    } else if (argc != 1) {
        fprintf(stderr, "usage: import [A B]\n");
        return 2;
    }
    memcpy(tape, sizes, sizeof sizes);
    import(a, b, tape + sizeof sizes);
    memcpy(tape + sizeof sizes + MODEL_LENGTH, others, sizeof others);
    print_slip(tape, sizeof tape);
    return 0;
}
