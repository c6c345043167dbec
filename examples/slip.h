/*
 * The firing slip of a tape in memory, for the examples: it solves, judges what the solve left, and
 * prints.
 */
#ifndef SLIP_H
#define SLIP_H

#include "io.h"

static int32_t plan[FIBERGRAVEL_MOST_PLAN], multipliers[FIBERGRAVEL_MOST_MULTIPLIERS];

/* Judging gives the gap of 'proved' again, and shows 'impossible' again. The library is proved to do
   so; a program that is handed plan and multipliers by others learns by these calls what they are. */
static void judge(const uint8_t *tape, size_t tape_len, size_t plan_len, size_t multipliers_len,
                  const int64_t answer[FIBERGRAVEL_SOLVE_LENGTH])
{
    uint64_t code;
    int64_t gap[FIBERGRAVEL_JUDGE_PLAN_LENGTH];
    if (answer[FIBERGRAVEL_KIND] == FIBERGRAVEL_IMPOSSIBLE) {
        code = fibergravel_judge_multipliers(tape, tape_len, multipliers, multipliers_len);
        gap[0] = 0;
    } else {
        code = fibergravel_judge_plan(tape, tape_len, plan, plan_len, multipliers, multipliers_len, gap);
    }
    if (code || gap[0] != answer[FIBERGRAVEL_GAP]) {
        fprintf(stderr, "judging what the solve left gives another answer\n");
        exit(1);
    }
}

/* Prints the slip of a refusal. 'Open' is an answer: the rounds ended without either proof. */
static void print_refusal(uint64_t code)
{
    if (FIBERGRAVEL_REFUSAL(code) == FIBERGRAVEL_OPEN)
        printf("open\nrounds %" PRIu64 "\n", FIBERGRAVEL_CARRIED(code));
    else
        print_refused(code);
}

/* Prints the ranges of the m first duties: every rival that costs no more than the plan that the solve
   left has its own first duties in them. */
static void print_ranges(const uint8_t *tape, size_t tape_len, size_t plan_len, size_t multipliers_len, size_t m)
{
    int64_t ends[FIBERGRAVEL_RANGES_LENGTH];
    /* Not refused: judging gave a gap. */
    fibergravel_ranges(tape, tape_len, plan, plan_len, multipliers, multipliers_len, ends);
    for (size_t j = 0; j < m; j++)
        printf("range %" PRId64 " %" PRId64 "\n", ends[2 * j + FIBERGRAVEL_RANGE_LOW],
               ends[2 * j + FIBERGRAVEL_RANGE_HIGH]);
}

/* Prints the slip of a result, but for the ranges of its m first duties. */
static void print_answer(const int64_t answer[FIBERGRAVEL_SOLVE_LENGTH], size_t m)
{
    if (answer[FIBERGRAVEL_KIND] == FIBERGRAVEL_IMPOSSIBLE) {
        printf("impossible\nrounds %" PRId64 "\n", answer[FIBERGRAVEL_ENTERED]);
        return;
    }
    printf("proved\nrounds %" PRId64 "\ngap %" PRId64 "\nfirst", answer[FIBERGRAVEL_ENTERED], answer[FIBERGRAVEL_GAP]);
    for (size_t j = 0; j < m; j++)
        printf(" %" PRId64, answer[FIBERGRAVEL_FIRST + j]);
    printf("\n");
}

/* Prints the slip of a tape, and ends the program where it cannot be written. */
static void print_slip(const uint8_t *tape, size_t tape_len)
{
    int64_t numbers[FIBERGRAVEL_READ_LENGTH], answer[FIBERGRAVEL_SOLVE_LENGTH];
    uint64_t code = fibergravel_read(tape, tape_len, numbers);
    if (!code) {
        size_t n = (size_t)numbers[FIBERGRAVEL_STATES];
        size_t m = (size_t)numbers[FIBERGRAVEL_INPUTS];
        size_t steps = (size_t)numbers[FIBERGRAVEL_STEPS];
        size_t plan_len = steps * (n + m), multipliers_len = steps * n;
        code = fibergravel_solve(tape, tape_len, plan, plan_len, multipliers, multipliers_len, answer);
        if (!code) {
            judge(tape, tape_len, plan_len, multipliers_len, answer);
            print_answer(answer, m);
            if (answer[FIBERGRAVEL_KIND] == FIBERGRAVEL_PROVED)
                print_ranges(tape, tape_len, plan_len, multipliers_len, m);
        }
    }
    if (code)
        print_refusal(code);
    flush_output();
}

#endif
