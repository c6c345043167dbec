/*
 * Prints the record of a firing for the tape in a file: the bytes that the laboratory gets, and the bytes
 * that the service gets, in hexadecimal, or the tape's refusal.
 *
 *     (cd crates/planner && rt lib)
 *     cc -Iinclude examples/record.c crates/planner/out/libplanner.a -o record
 *     ./record TAPE
 *
 * Exit status: 0 where a record was printed, whatever its kind; 1 where none was; 2 for wrong arguments.
 */
#include "io.h"

static uint8_t tape[TAPE_ROOM];
static uint8_t laboratory[FIBERGRAVEL_LABORATORY_LENGTH], service[FIBERGRAVEL_MOST_SERVICE];

/* How many bytes the service gets for the numbers of a tape. */
static size_t service_length(const int64_t numbers[FIBERGRAVEL_READ_LENGTH])
{
    size_t n = (size_t)numbers[FIBERGRAVEL_STATES];
    size_t m = (size_t)numbers[FIBERGRAVEL_INPUTS];
    size_t steps = (size_t)numbers[FIBERGRAVEL_STEPS];
    return FIBERGRAVEL_RECORD_PLAN + 4 * steps * (2 * n + m);
}

static void print_bytes(const char *reader, const uint8_t *bytes, size_t count)
{
    printf("%s", reader);
    for (size_t i = 0; i < count; i++)
        printf(" %02X", bytes[i]);
    printf("\n");
}

/* Prints the record of a tape. The answer is the refusal, 0 where there is none. */
static uint64_t print_record(size_t tape_len)
{
    int64_t numbers[FIBERGRAVEL_READ_LENGTH], kind[FIBERGRAVEL_RECORD_LENGTH];
    uint64_t code = fibergravel_read(tape, tape_len, numbers);
    if (code)
        return code;
    size_t service_len = service_length(numbers);
    code = fibergravel_record(tape, tape_len, laboratory, sizeof laboratory, service, service_len, kind);
    if (code)
        return code;
    print_bytes("laboratory", laboratory, sizeof laboratory);
    print_bytes("service", service, service_len);
    return 0;
}

int main(int argc, char **argv)
{
    if (argc != 2) {
        fprintf(stderr, "usage: record TAPE\n");
        return 2;
    }
    uint64_t code = print_record(read_bytes(argv[1], tape, sizeof tape));
    if (code)
        print_refused(code);
    flush_output();
    return code ? 1 : 0;
}
