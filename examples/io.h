/*
 * What the examples share: they read a file, and print what a call refuses. The functions are inline
 * because not every program uses all of them.
 */
#ifndef IO_H
#define IO_H

#include <inttypes.h>
#include <stdio.h>
#include <stdlib.h>

#include "fibergravel.h"

/* No command of an accepted tape starts behind the offset of its FF, and none has more than 9 bytes: so
   many bytes decide any tape, however much follows. */
enum { TAPE_ROOM = FIBERGRAVEL_MOST_TAPE + 8 };

static inline void fail(const char *what)
{
    perror(what);
    exit(1);
}

/* Reads as much of a file as there is room for, and gives how many bytes that is. */
static inline size_t read_bytes(const char *name, uint8_t *bytes, size_t room)
{
    FILE *file = fopen(name, "rb");
    if (!file)
        fail(name);
    size_t count = fread(bytes, 1, room, file);
    if (ferror(file))
        fail(name);
    fclose(file);
    return count;
}

/* Prints a refusal, of a tape with the offset in it. */
static inline void print_refused(uint64_t code)
{
    unsigned number = FIBERGRAVEL_REFUSAL(code);
    if (number <= FIBERGRAVEL_OVERRUN || number == FIBERGRAVEL_WEIGHTLESS)
        printf("refused %u at %" PRIu64 "\n", number, FIBERGRAVEL_CARRIED(code));
    else
        printf("refused %u\n", number);
}

/* Ends the program where what it printed cannot be written. */
static inline void flush_output(void)
{
    if (fflush(stdout) != 0)
        fail("standard output");
}

#endif
