/* Watches a sheet settle: solves it round by round, and prints after each call which run it is in, how many rounds that run has made, the largest
 * error and the flag. Then it solves the sheet in one call and says whether the two agree, in every bit that both fill in.
 *
 *     settle SHEET
 *
 * examples/settle.sh builds and runs it. Ends with 0 if they agree, 1 if they do not, 2 if there is no sheet to solve. */
#include <stdio.h>
#include <stdlib.h>
#include <string.h>

#include "sheet.h"

/* The most of a sheet: bytes, bodies, relations, unknowns and rows. */
enum { BYTES = 42520, BODIES = 64, RELATIONS = 128, UNKNOWNS = 6 * BODIES, ROWS = 7 * RELATIONS };
enum { STATE = 1 + 2 * UNKNOWNS + ROWS };
enum { SCRATCH = ROWS * UNKNOWNS + ROWS * ROWS + ROWS * (ROWS + 1) / 2 + 8 * ROWS + 8 * UNKNOWNS + 32 * BODIES };
enum { NO_DRAG = 65535, FINISHED = 3 };

/* What sheet_solve takes as given, but for the rounds: it takes 60 in each run. */
static const double tolerance = 1e-9, drag_weight = 10000.0;
static const uint32_t rounds = 200, row_limit = 800;

/* What a call fills in. All of it is kept at 0 past the sheet's bodies and relations, so two answers can be compared whole. */
struct answer {
    double poses[12 * BODIES], frames[12 * BODIES], errors[RELATIONS];
    uint8_t converged;
};

static uint8_t sheet[BYTES + 1];
static double state[STATE], scratch[SCRATCH];
static struct answer by_rounds, at_once;

static double largest_error(const struct answer *a) {
    double most = 0.0;
    for (int i = 0; i < RELATIONS; i++)
        if (a->errors[i] > most) most = a->errors[i];
    return most;
}

static int agree(const struct answer *a, const struct answer *b) {
    return memcmp(a->poses, b->poses, sizeof a->poses) == 0 && memcmp(a->frames, b->frames, sizeof a->frames) == 0 &&
           memcmp(a->errors, b->errors, sizeof a->errors) == 0 && a->converged == b->converged;
}

static int refused(const char *call, uint32_t number) {
    printf("%s refused %u\n", call, (unsigned)number);
    return 2;
}

int main(int argc, char **argv) {
    FILE *file = argc == 2 ? fopen(argv[1], "rb") : NULL;
    if (file == NULL) {
        fprintf(stderr, "settle SHEET\n");
        return 2;
    }
    size_t len = fread(sheet, 1, sizeof sheet, file);
    fclose(file);

    /* The running state is held here: these four numbers and `state`. */
    uint32_t unknowns = 0, rows = 0, done = 0;
    uint8_t run = 0;
    struct answer *a = &by_rounds;
    uint32_t number = sheet_solve_begin(sheet, len, NO_DRAG, tolerance, rounds, row_limit, drag_weight, 1, &unknowns, &rows, &done, &run, state,
                                        STATE, scratch, SCRATCH, a->poses, 12 * BODIES, a->frames, 12 * BODIES, a->errors, RELATIONS, &a->converged);
    if (number != 0) return refused("sheet_solve_begin", number);
    printf("%u unknowns, %u rows\n", (unsigned)unknowns, (unsigned)rows);
    for (int call = 1;; call++) {
        printf("call %d: run %d, done %u, largest error %.3e, converged %d\n", call, run, (unsigned)done, largest_error(a), a->converged);
        if (run == FINISHED) break;
        number = sheet_solve_on(sheet, len, NO_DRAG, tolerance, rounds, row_limit, drag_weight, 1, unknowns, rows, &done, &run, state, STATE, scratch,
                                SCRATCH, a->poses, 12 * BODIES, a->frames, 12 * BODIES, a->errors, RELATIONS, &a->converged);
        if (number != 0) return refused("sheet_solve_on", number);
    }

    struct answer *b = &at_once;
    number = sheet_solve_with(sheet, len, NO_DRAG, tolerance, rounds, row_limit, drag_weight, scratch, SCRATCH, b->poses, 12 * BODIES, b->frames,
                              12 * BODIES, b->errors, RELATIONS, &b->converged);
    if (number != 0) return refused("sheet_solve_with", number);
    printf("at once: largest error %.3e, converged %d\n", largest_error(b), b->converged);
    int same = agree(a, b);
    printf("round by round and at once %s\n", same ? "agree" : "differ");
    return same ? 0 : 1;
}
