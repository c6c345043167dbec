/*
 * Fibergravel: the planning core of a sinter furnace. It reads a furnace tape, judges plans and
 * multipliers that it is shown, says where a plan fails and how different the first duties of one as cheap
 * can be, works out a plan with a proved gap, writes the record of a firing for the laboratory and for the
 * service, shows the floats of a banded step, and turns a model in floats into commands of a tape.
 * docs/TAPE.md has the tape's format.
 *
 * Link with libplanner.a, which `rt lib` in crates/planner writes to crates/planner/out/. It is
 * compiled for x86-64 Linux, and needs memcpy and memset from outside and nothing else.
 *
 * For ever. A call that stands here keeps its name, its arguments and the places of its `out`. What is
 * added later comes as a new call, a new command of the tape or a wider range in one, a new refusal, or a
 * gap that says more of other plans, and FIBERGRAVEL_VERSION goes up.
 *
 * Memory. The caller owns all of it: the calls allocate nothing, keep no pointer and have no state
 * between them. So they may run on several threads at once, as long as no memory that one of them
 * writes is read or written by another at that time. What a call writes (`out`; plan and multipliers
 * of fibergravel_solve; laboratory and service of fibergravel_record; pivots and correction of
 * fibergravel_banded_correction; leftover of fibergravel_import_entry) overlaps nothing else that is passed
 * to it. Lengths count elements. Pointers are aligned as their type asks, no more.
 *
 * NULL is never allowed, also not with length 0. In C++ the data() of an empty std::vector or
 * std::span may be NULL: pass the address of any object of that type in its place, with length 0.
 *
 * Stack and time. A thread with FIBERGRAVEL_STACK bytes of stack, its own start included, has room for
 * every call. Every call ends. The longest are fibergravel_solve and fibergravel_record: they enter at
 * most the tape's R rounds, at most FIBERGRAVEL_MOST_ROUNDS, and the work of a round is bounded by the
 * tape's sizes. The other calls have no rounds.
 *
 * Floats. A double is a 64-bit float of IEEE 754, and any of them may be passed. The import calls,
 * fibergravel_banded_correction, and fibergravel_solve and fibergravel_record on a tape with command 51
 * expect the processor's usual mode for floats, which rounds to nearest, keeps subnormals and does not
 * trap; a program that is linked with -ffast-math may start in another one. A NaN that a call writes may
 * have any of the bits of a NaN.
 *
 * Results. Each call returns 0 where it has a result, which is then in what it writes. Otherwise it
 * returns a refusal, and then no lent number has changed, those of `out` included. FIBERGRAVEL_REFUSAL
 * gives its number, which is one of the names below, and FIBERGRAVEL_CARRIED what it carries, at most
 * 10,000, and 0 where it carries nothing.
 *
 * Plan and multipliers. n states, m inputs and N steps are the tape's. A plan has N * (n + m) numbers:
 * u(0), x(1), u(1), x(2) and so on, for each step its m inputs and then its n states. Multipliers are
 * N * n numbers, n for each step.
 *
 * Step. A round ends with a step from its multipliers to the next ones. With command 50 the step is e * g,
 * for each residual e, with the tape's g. With command 51, which has the operands of 50, it is the banded
 * step: d, where W * d = e is solved in floats for all residuals together. W has N * n rows, by step and
 * then state, and depends on the tape alone. Where rounding leaves a pivot of it that is not finite or not
 * above 0, the tape falls back on g. What a gap, 'proved' or 'impossible' says does not depend on the step.
 *
 * Rivals. A plan that is judged or worked out is in whole units. A rival of it may lie between them: its
 * numbers are whole multiples of 1/D, for any whole D from 1, each lies in its limits, and each state is
 * at most half a unit from what the model gives, unrounded, from the numbers before it. Every plan in
 * whole units that follows the tape is one.
 */
#ifndef FIBERGRAVEL_H
#define FIBERGRAVEL_H

#include <stddef.h>
#include <stdint.h>

#ifdef __cplusplus
extern "C" {
#endif

/* The version of the calls, one number that compares: 100 times the first part plus the second. With 1.1
   came curves, with 1.2 the imports, with 1.3 weights of 0, with 1.4 the record, with 1.5 the report, with
   1.6 rivals between whole units: for the same plan and multipliers a gap is the same as before or wider,
   by at most one for each number of the plan, and what follows from gaps has moved with them; with 1.7 the
   ranges; with 1.8 the banded step: command 51, and refusal 18, which every call that takes a tape may
   give; FIBERGRAVEL_STACK, which was 65536 from 1.1 on, is larger since. */
#define FIBERGRAVEL_VERSION_MAJOR 1
#define FIBERGRAVEL_VERSION_MINOR 8
#define FIBERGRAVEL_VERSION (100 * FIBERGRAVEL_VERSION_MAJOR + FIBERGRAVEL_VERSION_MINOR)

/* The number of a refusal, and what it carries. */
#define FIBERGRAVEL_REFUSAL(code) ((unsigned)((code) & 255))
#define FIBERGRAVEL_CARRIED(code) ((uint64_t)(code) >> 8)

/* The most of everything. */
enum {
    FIBERGRAVEL_MOST_STATES = 6,
    FIBERGRAVEL_MOST_INPUTS = 4,
    FIBERGRAVEL_MOST_STEPS = 12,
    FIBERGRAVEL_MOST_ROUNDS = 10000,
    FIBERGRAVEL_MOST_TAPE = 1064,       /* bytes of an accepted tape */
    FIBERGRAVEL_MOST_PLAN = 120,        /* numbers of a plan */
    FIBERGRAVEL_MOST_MULTIPLIERS = 72,  /* numbers of multipliers, residuals, pivots and a correction */
    FIBERGRAVEL_MOST_SERVICE = 787,     /* bytes of a record for the service */
    FIBERGRAVEL_MOST_MODEL = 300,       /* bytes of an imported model: 5 for each entry */
    FIBERGRAVEL_STACK = 131072          /* bytes of a stack that has room for a call */
};

/* The largest size of a residual that is passed to fibergravel_banded_correction. */
#define FIBERGRAVEL_MOST_RESIDUAL ((int64_t)1 << 40)

/* The refusals. */
enum {
    /* Of a tape. These carry an offset in it: that of the command's byte, or what is said here. */
    FIBERGRAVEL_CUT = 1,            /* the tape ends inside a command; or before FF: the tape's length */
    FIBERGRAVEL_UNKNOWN = 2,        /* no command has this byte */
    FIBERGRAVEL_MISPLACED = 3,      /* the first command is not 10, or there is a second 10 */
    FIBERGRAVEL_NO_SUCH_PLACE = 4,  /* an index outside the size */
    FIBERGRAVEL_OUT_OF_RANGE = 5,   /* an operand outside its range, or lo > hi. Of
                                       fibergravel_import_model: n or m outside its range, carrying 0.
                                       Of fibergravel_banded_correction also: a residual beyond
                                       FIBERGRAVEL_MOST_RESIDUAL in size, carrying 0, as does a command
                                       10 with such an operand; fibergravel_read refuses that one too */
    FIBERGRAVEL_TWICE = 6,          /* the same place, a column's step included, given again, or a
                                       command 50 or 51 after either */
    FIBERGRAVEL_ABSENT = 7,         /* at FF, something required was not given, or a curve lacks a step */
    FIBERGRAVEL_WEIGHTLESS = 18,    /* at FF, a weight is 0 on a tape with command 51; after 7, before 8 */
    FIBERGRAVEL_OVERRUN = 8,        /* bytes after FF: the offset after FF */

    /* These carry 0. fibergravel_judge_report does not refuse 10, 11 and 13: there they are kinds of a
       report, which has the place or the numbers. */
    FIBERGRAVEL_LENGTH = 9,         /* a lent slice has not the length that the tape asks for, or, of
                                       fibergravel_import_model, that n and m ask for; or the
                                       laboratory's has not 16 bytes */
    FIBERGRAVEL_OFF_MODEL = 10,     /* a state of the plan differs from the model */
    FIBERGRAVEL_OVER_LIMIT = 11,    /* a plan number outside lo to hi */
    FIBERGRAVEL_MULTIPLIER = 12,    /* one outside -16,777,216 to 16,777,216 */
    FIBERGRAVEL_WIDE = 13,          /* the gap is above T */
    FIBERGRAVEL_NOT_SHOWN = 14,     /* the multipliers do not show impossibility */

    /* This carries R. It is an answer of fibergravel_solve as much as a refusal: there may be a plan.
       fibergravel_record does not refuse it: there it is the kind FIBERGRAVEL_KIND_OPEN. */
    FIBERGRAVEL_OPEN = 15,          /* R rounds without 'proved' or 'impossible' */

    /* Of an entry in floats. These carry its count from 0, A by rows and then B by rows; 0 where it is
       imported alone. */
    FIBERGRAVEL_NOT_FINITE = 16,    /* infinite or not a number */
    FIBERGRAVEL_TOO_LARGE = 17      /* its number is beyond 16,384 in size */
};

/* Places of fibergravel_read's out, and how many numbers it has. */
enum {
    FIBERGRAVEL_STATES = 0,         /* n */
    FIBERGRAVEL_INPUTS = 1,         /* m */
    FIBERGRAVEL_STEPS = 2,          /* N */
    FIBERGRAVEL_STATE_MATRIX = 3,   /* 36: A(i,j) at 6 * i + j */
    FIBERGRAVEL_INPUT_MATRIX = 39,  /* 24: B(i,j) at 4 * i + j */
    FIBERGRAVEL_DRIFT = 63,         /* 6: w(i) */
    FIBERGRAVEL_LOW = 69,           /* 10: lo of each column, the n states and then the m inputs */
    FIBERGRAVEL_HIGH = 79,          /* 10: hi */
    FIBERGRAVEL_REFERENCE = 89,     /* 10: r of command 30, unused where the column has a curve or
                                       weight 0 */
    FIBERGRAVEL_WEIGHT = 99,        /* 10: h, 0 for a column without a target */
    FIBERGRAVEL_START = 109,        /* 6: x(0) */
    FIBERGRAVEL_GAIN = 115,         /* g, with command 51 used only where the tape falls back on it */
    FIBERGRAVEL_ROUNDS = 116,       /* R */
    FIBERGRAVEL_WANTED = 117,       /* T */
    FIBERGRAVEL_READ_LENGTH = 118
};

/* Places of fibergravel_read_references's out, and how many numbers it has. */
enum {
    FIBERGRAVEL_REFERENCES = 0,         /* 120: the reference of column c in step k at 12 * c + k */
    FIBERGRAVEL_REFERENCE_MARKS = 120,  /* 120: 1 where it is given, else 0, in the same order */
    FIBERGRAVEL_READ_REFERENCES_LENGTH = 240
};

/* How many numbers the out of fibergravel_read_step and that of fibergravel_banded_correction have, and the
   two steps that they tell apart. */
enum {
    FIBERGRAVEL_READ_STEP_LENGTH = 1,
    FIBERGRAVEL_BANDED_CORRECTION_LENGTH = 1,

    FIBERGRAVEL_STEP_GAIN = 0,
    FIBERGRAVEL_STEP_BANDED = 1
};

/* How many numbers fibergravel_judge_plan's out has. */
enum { FIBERGRAVEL_JUDGE_PLAN_LENGTH = 1 };

/* Places of fibergravel_judge_report's out, and how many numbers it has. The kind is 0 where the plan is
   accepted, else FIBERGRAVEL_OFF_MODEL, FIBERGRAVEL_OVER_LIMIT or FIBERGRAVEL_WIDE. What the other places
   hold goes by the kind, and those that it does not name are 0. */
enum {
    FIBERGRAVEL_REPORT_KIND = 0,
    FIBERGRAVEL_JUDGE_REPORT_LENGTH = 5,

    /* Accepted, kind 0. */
    FIBERGRAVEL_REPORT_GAP = 1,

    /* Off the model, or over a limit. */
    FIBERGRAVEL_REPORT_STEP = 1,    /* k of u(k) and x(k + 1), from 0 */
    FIBERGRAVEL_REPORT_COLUMN = 2,  /* the n states and then the m inputs, from 0 */
    FIBERGRAVEL_REPORT_FOUND = 3,   /* the number that the plan has there */
    FIBERGRAVEL_REPORT_DUE = 4,     /* the number that the model gives from those before it; over a
                                       limit, lo where the number found is below it, else hi */

    /* Wide. The gap is cost - floor. */
    FIBERGRAVEL_REPORT_COST = 1,
    FIBERGRAVEL_REPORT_FLOOR = 2    /* may be below 0 */
};

/* Places of fibergravel_ranges's out for u(0,0), and how many numbers it has. Those for u(0,j) are 2 * j
   further on. */
enum {
    FIBERGRAVEL_RANGE_LOW = 0,      /* the lower end */
    FIBERGRAVEL_RANGE_HIGH = 1,     /* the upper end */
    FIBERGRAVEL_RANGES_LENGTH = 8
};

/* Places of fibergravel_solve's out, how many numbers it has, and the kinds. The third is of
   fibergravel_record only. */
enum {
    FIBERGRAVEL_KIND = 0,
    FIBERGRAVEL_ENTERED = 1,        /* the rounds entered, the answering one included, 1 to R */
    FIBERGRAVEL_GAP = 2,
    FIBERGRAVEL_FIRST = 3,          /* 4: u(0) */
    FIBERGRAVEL_SOLVE_LENGTH = 7,

    FIBERGRAVEL_PROVED = 1,
    FIBERGRAVEL_IMPOSSIBLE = 2,
    FIBERGRAVEL_KIND_OPEN = 3
};

/* How many numbers fibergravel_record's out has: the kind, as at place FIBERGRAVEL_KIND of a solve's. */
enum { FIBERGRAVEL_RECORD_LENGTH = 1 };

/* Places of a record's bytes, and how many of them the laboratory has; the service has all. A number of
   several bytes has its low byte first, and signed ones are two's complement. What a record lacks keeps
   its place, with FF in each byte. */
enum {
    FIBERGRAVEL_RECORD_KIND = 0,
    FIBERGRAVEL_RECORD_DUTY_COUNT = 1,  /* m, or 0 where the record has no duties */
    FIBERGRAVEL_RECORD_ROUNDS = 2,      /* 2 bytes, unsigned: the rounds entered, R where it is open */
    FIBERGRAVEL_RECORD_GAP = 4,         /* 4 bytes, unsigned */
    FIBERGRAVEL_RECORD_DUTIES = 8,      /* 4 of 2 bytes each, signed: u(0), with FF beyond m */
    FIBERGRAVEL_LABORATORY_LENGTH = 16,

    FIBERGRAVEL_RECORD_STATES = 16,     /* n */
    FIBERGRAVEL_RECORD_INPUTS = 17,     /* m */
    FIBERGRAVEL_RECORD_STEPS = 18,      /* N */
    FIBERGRAVEL_RECORD_PLAN = 19        /* N * (n + m) of 4 bytes each, signed; right behind the plan
                                           stand the multipliers, N * n of 4 bytes each, signed */
};

/* Places of fibergravel_import_entry's out, how many numbers it and leftover have, and the two kinds. */
enum {
    FIBERGRAVEL_ENTRY_KIND = 0,
    FIBERGRAVEL_ENTRY_NUMBER = 1,   /* the whole number, -16,384 to 16,384 */
    FIBERGRAVEL_IMPORT_ENTRY_LENGTH = 2,
    FIBERGRAVEL_IMPORT_LEFTOVER_LENGTH = 1,

    FIBERGRAVEL_WHOLE = 1,
    FIBERGRAVEL_NEAR = 2
};

/*
 * Reads a tape. out holds each number of the tape but those of its curves, 0 where the tape gives none
 * and beyond its sizes. Refusals 1 to 8 and 18.
 */
uint64_t fibergravel_read(const uint8_t *tape, size_t tape_len, int64_t out[FIBERGRAVEL_READ_LENGTH]);

/*
 * Reads a tape's curves. A column has one where command 31 gives its references, one for each of the N
 * steps; where it has none, r is its reference in all of them. Step k covers u(k) and x(k + 1). out holds
 * the references of command 31 and their marks, 0 where none is given and beyond the sizes.
 * Refusals 1 to 8 and 18, as fibergravel_read has them.
 */
uint64_t fibergravel_read_references(const uint8_t *tape, size_t tape_len,
                                     int64_t out[FIBERGRAVEL_READ_REFERENCES_LENGTH]);

/*
 * Reads which step a tape asks for. out holds 0 (FIBERGRAVEL_STEP_GAIN) where it has command 50, and 1
 * (FIBERGRAVEL_STEP_BANDED) where it has 51, whether it falls back on g or not. Refusals 1 to 8 and 18, as
 * fibergravel_read has them.
 */
uint64_t fibergravel_read_step(const uint8_t *tape, size_t tape_len, int64_t out[FIBERGRAVEL_READ_STEP_LENGTH]);

/*
 * Judges a plan with multipliers. out holds the gap, at most T: the plan follows the tape, and no rival
 * costs less than its cost minus the gap. Refusals 1 to 13 and 18.
 */
uint64_t fibergravel_judge_plan(const uint8_t *tape, size_t tape_len, const int32_t *plan, size_t plan_len,
                                const int32_t *multipliers, size_t multipliers_len,
                                int64_t out[FIBERGRAVEL_JUDGE_PLAN_LENGTH]);

/*
 * Judges a plan with multipliers as fibergravel_judge_plan does, and reports what it finds: the gap of an
 * accepted plan; the place of a number that is off the model or over a limit, what is found there and
 * what was due; or cost and floor, where the gap is above T. The place is the first that fails, step by
 * step, the inputs of a step before its states: every number before it passes its tests, and no plan with
 * the same numbers up to and including it is accepted, whatever the multipliers. Refusals 1 to 9, 12 and
 * 18, as fibergravel_judge_plan has them.
 */
uint64_t fibergravel_judge_report(const uint8_t *tape, size_t tape_len, const int32_t *plan, size_t plan_len,
                                  const int32_t *multipliers, size_t multipliers_len,
                                  int64_t out[FIBERGRAVEL_JUDGE_REPORT_LENGTH]);

/*
 * Judges a plan with multipliers as fibergravel_judge_plan does, and says how different the first duties of
 * a plan as cheap can be. out holds a range for each of the m inputs, and 0 beyond them: every rival that
 * costs no more than the accepted plan has its u(0,j) from the lower to the upper end, both included, and
 * so has the plan itself. The ends are whole numbers, rounded outward, from lo to hi; where the input's
 * weight is 0 they are lo and hi.
 * Use it on a plan that is to be fired, such as fibergravel_solve leaves with 'proved'. A narrow range says
 * that every plan as cheap sets this heater nearly alike. A wide one does not settle it: there may be a
 * plan as cheap with quite another duty, or none. Before rounding, a range is at most
 * 2 * sqrt(gap / (4096 * h)) wide, with h the input's weight from 1 on, and the gap is at most T.
 * Refusals 1 to 13 and 18, as fibergravel_judge_plan has them.
 */
uint64_t fibergravel_ranges(const uint8_t *tape, size_t tape_len, const int32_t *plan, size_t plan_len,
                            const int32_t *multipliers, size_t multipliers_len,
                            int64_t out[FIBERGRAVEL_RANGES_LENGTH]);

/*
 * Judges multipliers for impossibility. 0 is 'shown': there is no rival, and so no plan follows the tape.
 * Refusals 1 to 9, 12, 14 and 18.
 */
uint64_t fibergravel_judge_multipliers(const uint8_t *tape, size_t tape_len, const int32_t *multipliers,
                                       size_t multipliers_len);

/*
 * Works out a plan. out holds kind, rounds, gap and u(0); what an answer lacks is 0.
 * 'Proved' (kind 1) fills plan and multipliers; fibergravel_judge_plan gives the same gap for them.
 * 'Impossible' (kind 2) fills the multipliers only, with which fibergravel_judge_multipliers shows it;
 * it has no gap and no u(0). Both slices have their full length at the call, whatever they hold.
 * Refusals 1 to 9, 15 and 18.
 */
uint64_t fibergravel_solve(const uint8_t *tape, size_t tape_len, int32_t *plan, size_t plan_len,
                           int32_t *multipliers, size_t multipliers_len, int64_t out[FIBERGRAVEL_SOLVE_LENGTH]);

/*
 * Works out a plan as fibergravel_solve does, and writes the record of it for two readers: 16 bytes for
 * the laboratory, and for the service the same 16, then n, m, N, plan and multipliers, which are
 * 19 + 4 * N * (2 * n + m) bytes in all. out holds the kind, which is byte 0 of both.
 * 'Proved' (kind 1) has everything; its duties are u(0), the plan's first m numbers. 'Impossible' (kind 2)
 * has no gap, no duties and no plan. 'Open' (kind 3) has no multipliers either; it is no refusal here.
 * Rounds and sizes are in every record. Two records have the same 16 bytes where they agree in kind,
 * rounds, gap and duties, and only there; they have the same bytes for the service only where they are
 * equal. Refusals 1 to 9 and 18.
 */
uint64_t fibergravel_record(const uint8_t *tape, size_t tape_len, uint8_t *laboratory, size_t laboratory_len,
                            uint8_t *service, size_t service_len, int64_t out[FIBERGRAVEL_RECORD_LENGTH]);

/*
 * Shows the floats of the banded step, for service, and for comparison bit by bit. residuals are e, one for
 * each row of W, by step and then state, N * n numbers from -2^40 to 2^40; those of a round are among them.
 * out holds 1 (FIBERGRAVEL_STEP_BANDED) where the tape's rounds take the banded step: pivots then holds the
 * pivot of each row, finite and above 0, and correction the d of these residuals, both in the order of the
 * rows. A d may be infinite or a NaN; a round adds 0 in its place. out holds 0 (FIBERGRAVEL_STEP_GAIN), and
 * both slices are as they were, where the tape has command 50 or falls back on g. All three slices have
 * N * n numbers at the call. Refusals 1 to 8 and 18; then 9; then 5, carrying 0, for a residual beyond its
 * range.
 */
uint64_t fibergravel_banded_correction(const uint8_t *tape, size_t tape_len, const int64_t *residuals,
                                       size_t residuals_len, double *pivots, size_t pivots_len,
                                       double *correction, size_t correction_len,
                                       int64_t out[FIBERGRAVEL_BANDED_CORRECTION_LENGTH]);

/*
 * Imports one entry a of a model. Its number is the whole number nearest to 4096 * a, halves upward. out
 * holds the kind and the number. 'Whole' (kind 1) says that 4096 * a is the number; leftover is 0.0 then.
 * 'Near' (kind 2) says that it is not: leftover is 4096 * a minus the number, the exact difference, from
 * -0.5 up to but not including 0.5. Refusals 16 and 17, which carry nothing here.
 */
uint64_t fibergravel_import_entry(double entry, int64_t out[FIBERGRAVEL_IMPORT_ENTRY_LENGTH],
                                  double leftover[FIBERGRAVEL_IMPORT_LEFTOVER_LENGTH]);

/*
 * Imports a model of n states and m inputs. a holds A by rows, n * n floats, b holds B by rows, n * m
 * floats, and out gets 5 * (n * n + n * m) bytes, a command for each entry with its number, zeros
 * included: A by rows as command 20, then B by rows as 21. They may stand anywhere between command 10
 * and FF of a tape of these sizes. n is 1 to FIBERGRAVEL_MOST_STATES and m 1 to FIBERGRAVEL_MOST_INPUTS.
 * Refusals 5, 9, and then 16 and 17 of the first entry that has one.
 */
uint64_t fibergravel_import_model(size_t n, size_t m, const double *a, size_t a_len, const double *b,
                                  size_t b_len, uint8_t *out, size_t out_len);

#ifdef __cplusplus
}
#endif

#endif
