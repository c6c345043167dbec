/*
 * Prints the firing slip of the tape in a file, and judges what the solve left before it does so. What
 * it does with the tape stands in slip.h.
 *
 *     (cd crates/planner && rt lib)
 *     cc -Iinclude examples/solve.c crates/planner/out/libplanner.a -o solve
 *     ./solve TAPE
 *
 * Exit status: 0 where a slip was printed, whatever it says; 1 where none was; 2 for wrong arguments.
 */
#include "slip.h"

static uint8_t tape[TAPE_ROOM];

int main(int argc, char **argv)
{
    if (argc != 2) {
        fprintf(stderr, "usage: solve TAPE\n");
        return 2;
    }
    size_t tape_len = read_bytes(argv[1], tape, sizeof tape);
    print_slip(tape, tape_len);
    return 0;
}
