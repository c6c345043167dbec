/*
 * Judges the plan in a file by the tape in another, and prints in one line what comes of it: the gap of
 * an accepted plan, the place where the plan fails, cost and floor where the gap is too wide, or the
 * refusal.
 *
 *     (cd crates/planner && rt lib)
 *     cc -Iinclude examples/judge.c crates/planner/out/libplanner.a -o judge
 *     ./judge TAPE PLAN
 *
 * A plan file is a text of words with blanks and line ends between them: `plan` and the plan's numbers,
 * then `multipliers` and the multipliers.
 *
 *     plan 4 102
 *     multipliers -16
 *
 * Exit status: 0 where a report was printed, whatever it says; 1 where none was; 2 for wrong arguments.
 */
#include <ctype.h>
#include <string.h>

#include "io.h"

/* One number more than any plan has is too many for every tape, so that no list needs more room. A
   word of a plan file is `multipliers` or shorter; more zeros in front of a number than there is room for
   make it none. */
enum { ROOM = FIBERGRAVEL_MOST_PLAN + 1, MOST_WORD = 31 };

struct list {
    int32_t numbers[ROOM];
    size_t count;
};

static uint8_t tape[TAPE_ROOM];
static struct list plan, multipliers;

/* Reads the next word of a file, which is empty at its end. One that is too long or has a byte 0 comes
   as another that no plan file has. */
static void next_word(FILE *file, char word[MOST_WORD + 1])
{
    size_t length = 0;
    int c = getc(file);
    while (isspace(c))
        c = getc(file);
    for (; c != EOF && !isspace(c); c = getc(file)) {
        if (c == 0 || length == MOST_WORD) {
            word[0] = '?';
            length = 1;
        } else {
            word[length++] = (char)c;
        }
    }
    word[length] = 0;
}

/* Says whether a word is a number of 32 bits, and which. */
static int is_number(const char *word, int32_t *number)
{
    char *end;
    long long value = strtoll(word, &end, 10);
    *number = (int32_t)value;
    return end != word && !*end && INT32_MIN <= value && value <= INT32_MAX;
}

/* Reads numbers, and the word behind them. */
static void read_list(FILE *file, struct list *list, char behind[MOST_WORD + 1])
{
    int32_t number;
    for (next_word(file, behind); is_number(behind, &number); next_word(file, behind))
        if (list->count < ROOM)
            list->numbers[list->count++] = number;
}

/* Reads plan and multipliers, and says whether the file is a plan file. */
static int read_lists(FILE *file)
{
    char word[MOST_WORD + 1];
    next_word(file, word);
    if (strcmp(word, "plan") != 0)
        return 0;
    read_list(file, &plan, word);
    if (strcmp(word, "multipliers") != 0)
        return 0;
    read_list(file, &multipliers, word);
    return !*word;
}

static void read_plan(const char *name)
{
    FILE *file = fopen(name, "rb");
    if (!file)
        fail(name);
    int is_plan = read_lists(file);
    if (ferror(file))
        fail(name);
    fclose(file);
    if (!is_plan) {
        fprintf(stderr, "%s: no plan file\n", name);
        exit(1);
    }
}

/* Prints the place of a fault, and the number that is there. The first n columns are states. */
static void print_place(const int64_t report[FIBERGRAVEL_JUDGE_REPORT_LENGTH], int64_t n)
{
    int64_t column = report[FIBERGRAVEL_REPORT_COLUMN];
    printf("step %" PRId64 ", ", report[FIBERGRAVEL_REPORT_STEP]);
    if (column < n)
        printf("state %" PRId64, column);
    else
        printf("input %" PRId64, column - n);
    printf(": %" PRId64 " found, ", report[FIBERGRAVEL_REPORT_FOUND]);
}

/* Prints a fault. */
static void print_fault(const int64_t report[FIBERGRAVEL_JUDGE_REPORT_LENGTH], size_t tape_len)
{
    int64_t numbers[FIBERGRAVEL_READ_LENGTH], due = report[FIBERGRAVEL_REPORT_DUE];
    /* Not refused: the tape has a report. */
    fibergravel_read(tape, tape_len, numbers);
    print_place(report, numbers[FIBERGRAVEL_STATES]);
    if (report[FIBERGRAVEL_REPORT_KIND] == FIBERGRAVEL_OFF_MODEL)
        printf("the model gives %" PRId64 "\n", due);
    else
        printf("%s the limit %" PRId64 "\n", report[FIBERGRAVEL_REPORT_FOUND] < due ? "below" : "above", due);
}

static void print_wide(int64_t cost, int64_t floor)
{
    printf("cost %" PRId64 ", floor %" PRId64 ": the gap, %" PRId64 ", is above the wanted one\n", cost, floor,
           cost - floor);
}

static void print_report(const int64_t report[FIBERGRAVEL_JUDGE_REPORT_LENGTH], size_t tape_len)
{
    switch (report[FIBERGRAVEL_REPORT_KIND]) {
    case FIBERGRAVEL_OFF_MODEL:
    case FIBERGRAVEL_OVER_LIMIT:
        print_fault(report, tape_len);
        break;
    case FIBERGRAVEL_WIDE:
        print_wide(report[FIBERGRAVEL_REPORT_COST], report[FIBERGRAVEL_REPORT_FLOOR]);
        break;
    default:
        printf("gap %" PRId64 "\n", report[FIBERGRAVEL_REPORT_GAP]);
    }
}

int main(int argc, char **argv)
{
    if (argc != 3) {
        fprintf(stderr, "usage: judge TAPE PLAN\n");
        return 2;
    }
    size_t tape_len = read_bytes(argv[1], tape, sizeof tape);
    read_plan(argv[2]);
    int64_t report[FIBERGRAVEL_JUDGE_REPORT_LENGTH];
    uint64_t code = fibergravel_judge_report(tape, tape_len, plan.numbers, plan.count, multipliers.numbers,
                                             multipliers.count, report);
    if (code)
        print_refused(code);
    else
        print_report(report, tape_len);
    flush_output();
    return code ? 1 : 0;
}
