/* Makes every call of include/sheet.h on each sheet, and prints the answers.
 *
 *     calls SHEET..
 *
 * One function makes one call. Lengths are in millimetres, angles in degrees; an error is in millimetres or radians, as
 * its relation measures. examples/calls.sh builds and runs this program. It is valid C11 and valid C++.
 *
 * Returns 0 if every call is accepted and the answers agree with each other, 1 if not, and 2 if there is no sheet. */
#include <math.h>
#include <stdio.h>
#include <string.h>

#include "sheet.h"

/* The largest sheet: its bodies, relations, unknowns and rows. */
enum { BODIES = 64, RELATIONS = 128, UNKNOWNS = 6 * BODIES, ROWS = 7 * RELATIONS };

/* The lengths that sheet.h gives for the largest sheet: of sheets in bytes, of slices in elements. Each buffer below
 * has such a length and serves every sheet. dof needs less scratch than solve. */
enum { HEADER = 24, BODY = 136, RELATION = 264, SHEET = HEADER + BODY * BODIES + RELATION * RELATIONS };
enum { POSES = 12 * BODIES, FRAMES = 12 * BODIES, MOTION = 12, FREEDOMS = 29 * BODIES };
enum { BYTES = 2 * BODIES + 9 * RELATIONS, WORDS = 5 * RELATIONS, NUMBERS = 16 * BODIES + 29 * RELATIONS };
enum { STATE = 1 + 2 * UNKNOWNS + ROWS };
enum { SOLVE_SCRATCH = ROWS * UNKNOWNS + ROWS * ROWS + ROWS * (ROWS + 1) / 2 + 8 * ROWS + 8 * UNKNOWNS + 32 * BODIES };
enum { DOF_SCRATCH = ROWS * UNKNOWNS + 2 * UNKNOWNS * UNKNOWNS + 8 * ROWS + 8 * UNKNOWNS + 32 * BODIES };

/* 65535 is no body and no relation. 13 is the number for a relation that the sheet does not have. */
enum { NONE = 65535, NO_SUCH_RELATION = 13, FINISHED = 3 };

/* What sheet_solve uses, to begin and continue by rounds with the same parameters. */
static const double tolerance = 1e-9, drag_weight = 10000.0;
static const uint32_t rounds = 60, row_limit = 800;

/* The sheet, with one byte more than the largest has, so that a file that is too long is refused; and its numbers of
 * bodies and relations. */
static uint8_t sheet[SHEET + 1];
static size_t sheet_len;
static uint16_t bodies, relations;

/* The answer of a call that solves. All of it stays 0 past the sheet's bodies and relations. */
struct answer {
    double poses[POSES], frames[FRAMES], errors[RELATIONS];
    uint8_t converged;
};
static struct answer at_once, coarse, by_rounds;

/* The running state between two calls by rounds: the doubles, and these four numbers. */
struct running {
    uint32_t unknowns, rows, done;
    uint8_t run;
    double state[STATE];
};
static struct running running;

static double scratch[SOLVE_SCRATCH];

/* ---- What is printed ---- */

/* The number as six decimals show it, without the sign of a zero. */
static double shown(double x) { return fabs(x) < 5e-7 ? 0.0 : x; }

static double degrees(double radians) { return radians * (180.0 / 3.14159265358979323846); }

/* The angle in degrees of a turning, given by its nine entries by row: the entries on its diagonal sum to 1 + 2 cos,
 * and the differences across the diagonal are 2 sin times the axis. */
static double turned(const double *r) {
    double x = r[7] - r[5], y = r[2] - r[6], z = r[3] - r[1];
    return degrees(atan2(sqrt(x * x + y * y + z * z), r[0] + r[4] + r[8] - 1.0));
}

static void print_vector(const char *before, const double *v, const char *after) {
    printf("%s %.6f %.6f %.6f%s", before, shown(v[0]), shown(v[1]), shown(v[2]), after);
}

static void print_solved(const struct answer *a) {
    double largest = 0.0;
    for (int i = 0; i < relations; i++)
        if (a->errors[i] > largest) largest = a->errors[i];
    printf("flag %d, largest error %.6f mm or rad\n", a->converged, largest);
}

/* True if the call was refused, which is printed. */
static int refused(const char *call, uint32_t number) {
    if (number != 0) printf("%s: refused %u\n", call, (unsigned)number);
    return number != 0;
}

/* ---- The calls. Each function returns 1 if its call was accepted, else 0 ---- */

/* Judges whether each relation suits its ends. On a sheet that is accepted the number is 0, 11 or 12. */
static int judge(void) {
    for (uint16_t i = 0; i < relations; i++) {
        uint32_t number = sheet_judge(sheet, sheet_len, i);
        printf("judge %d: %s its ends, %u\n", i, number == 0 ? "suits" : "does not suit", (unsigned)number);
    }
    return 1;
}

/* Reads each relation as a joint: how far end b is from end a along a's axis, and how far it is turned about it. */
static int joint_reading(void) {
    for (uint16_t i = 0; i < relations; i++) {
        double offset, angle;
        if (refused("joint_reading", sheet_joint_reading(sheet, sheet_len, i, &offset, &angle))) return 0;
        printf("joint_reading %d: offset %.6f mm, angle %.6f degrees\n", i, shown(offset), shown(degrees(angle)));
    }
    return 1;
}

/* The motion that brings end b's body to each relation by itself: a place p goes to turning * p + shift. */
static int snap(void) {
    for (uint16_t i = 0; i < relations; i++) {
        double motion[MOTION];
        if (refused("snap", sheet_snap(sheet, sheet_len, i, motion, MOTION))) return 0;
        printf("snap %d: turn %.6f degrees,", i, shown(turned(motion)));
        print_vector(" shift", motion + 9, " mm\n");
    }
    return 1;
}

/* Solves the sheet without a drag, and prints where each body is then: its frame's origin, and the angle of its pose's
 * turning. */
static int solve(void) {
    struct answer *a = &at_once;
    uint32_t number = sheet_solve(sheet, sheet_len, NONE, scratch, SOLVE_SCRATCH, a->poses, POSES, a->frames, FRAMES,
                                  a->errors, RELATIONS, &a->converged);
    if (refused("solve", number)) return 0;
    printf("solve: ");
    print_solved(a);
    for (int i = 0; i < bodies; i++) {
        printf("  body %d", i);
        print_vector(" at", a->frames + 12 * i, " mm, ");
        printf("turned %.6f degrees\n", shown(turned(a->poses + 12 * i)));
    }
    return 1;
}

/* Solves the sheet coarsely: to a thousandth, with at most 20 rounds a run, and with the last body dragged, so that the
 * others come to it. A sheet without bodies has none to drag: 0 - 1 is 65535. */
static int solve_with(void) {
    struct answer *a = &coarse;
    uint16_t drag = (uint16_t)(bodies - 1);
    uint32_t number = sheet_solve_with(sheet, sheet_len, drag, 1e-3, 20, row_limit, drag_weight, scratch, SOLVE_SCRATCH,
                                       a->poses, POSES, a->frames, FRAMES, a->errors, RELATIONS, &a->converged);
    if (refused("solve_with", number)) return 0;
    printf("solve_with 0.001 and 20 rounds, body %d dragged: ", drag);
    print_solved(a);
    return 1;
}

/* The run is 1, or 2 in the retry, or 3 if the state is finished; the rounds are those that the run has made. */
static void print_running(const char *call) {
    printf("%s: run %d, rounds %u, ", call, running.run, (unsigned)running.done);
    print_solved(&by_rounds);
}

/* Begins to solve by rounds, with a portion of one round. */
static int solve_begin(void) {
    struct answer *a = &by_rounds;
    struct running *r = &running;
    uint32_t number = sheet_solve_begin(sheet, sheet_len, NONE, tolerance, rounds, row_limit, drag_weight, 1,
                                        &r->unknowns, &r->rows, &r->done, &r->run, r->state, STATE, scratch,
                                        SOLVE_SCRATCH, a->poses, POSES, a->frames, FRAMES, a->errors, RELATIONS,
                                        &a->converged);
    if (refused("solve_begin", number)) return 0;
    printf("solve_begin: %u unknowns, %u rows\n", (unsigned)r->unknowns, (unsigned)r->rows);
    print_running("solve_begin, 1 round");
    return 1;
}

/* Continues from the running state with a portion of ten rounds. */
static int solve_on(void) {
    struct answer *a = &by_rounds;
    struct running *r = &running;
    uint32_t number = sheet_solve_on(sheet, sheet_len, NONE, tolerance, rounds, row_limit, drag_weight, 10,
                                     r->unknowns, r->rows, &r->done, &r->run, r->state, STATE, scratch, SOLVE_SCRATCH,
                                     a->poses, POSES, a->frames, FRAMES, a->errors, RELATIONS, &a->converged);
    if (refused("solve_on", number)) return 0;
    print_running("solve_on, 10 rounds");
    return 1;
}

/* The freedom of the assembly, and of each body with the others held still. A body has 29 doubles: two counts, three
 * slides of a direction each, and three turns of an axis and a point each. */
static int dof(void) {
    double freedoms[FREEDOMS];
    uint32_t total;
    uint32_t number = sheet_dof(sheet, sheet_len, scratch, DOF_SCRATCH, freedoms, FREEDOMS, &total);
    if (refused("dof", number)) return 0;
    printf("dof: free %u\n", (unsigned)total);
    for (int i = 0; i < bodies; i++) {
        const double *body = freedoms + 29 * i, *slides = body + 2, *turns = body + 11;
        printf("  body %d: slides %.0f, turns %.0f\n", i, body[0], body[1]);
        for (int j = 0; j < body[0]; j++) print_vector("    slides along", slides + 3 * j, "\n");
        for (int j = 0; j < body[1]; j++) {
            print_vector("    turns about", turns + 6 * j, "");
            print_vector(" through", turns + 6 * j + 3, " mm\n");
        }
    }
    return 1;
}

/* A scene in memory, as sheet_write takes it. */
struct scene {
    uint8_t bytes[BYTES];
    uint16_t words[WORDS];
    double numbers[NUMBERS];
    size_t bytes_len, words_len, numbers_len;
};
static struct scene scene;

static uint16_t word_at(const uint8_t *at) { return (uint16_t)(at[0] | at[1] << 8); }

static void take_bytes(const uint8_t *at, int count) {
    for (int i = 0; i < count; i++) scene.bytes[scene.bytes_len++] = at[i];
}
static void take_word(const uint8_t *at) { scene.words[scene.words_len++] = word_at(at); }
/* A number of a sheet is a double of eight bytes, the lowest first. */
static void take_numbers(const uint8_t *at, int count) {
    for (int i = 0; i < count; i++, at += 8) {
        uint64_t bits = 0;
        for (int j = 7; j >= 0; j--) bits = bits << 8 | at[j];
        memcpy(&scene.numbers[scene.numbers_len++], &bits, sizeof bits);
    }
}

/* Takes the sheet apart: of each body 2 bytes and 16 numbers; of each relation 3 bytes, 2 words and 5 numbers, and of
 * each of its three ends 2 bytes, a word and 8 numbers. */
static void take_apart(void) {
    scene.bytes_len = scene.words_len = scene.numbers_len = 0;
    const uint8_t *at = sheet + HEADER;
    for (int i = 0; i < bodies; i++, at += BODY) {
        take_bytes(at, 2);
        take_numbers(at + 8, 16);
    }
    for (int i = 0; i < relations; i++, at += RELATION) {
        take_bytes(at, 3);
        take_word(at + 4);
        take_word(at + 6);
        take_numbers(at + 8, 5);
        for (const uint8_t *end = at + 48; end < at + RELATION; end += 72) {
            take_bytes(end, 2);
            take_word(end + 2);
            take_numbers(end + 8, 8);
        }
    }
}

/* Writes the scene that the sheet holds, which gives the sheet's own bytes. */
static int write_again(void) {
    static uint8_t written[SHEET];
    take_apart();
    uint32_t number = sheet_write(bodies, relations, scene.bytes, scene.bytes_len, scene.words, scene.words_len,
                                  scene.numbers, scene.numbers_len, written, SHEET);
    if (refused("write", number)) return 0;
    int same = memcmp(written, sheet, sheet_len) == 0;
    printf("write: %s\n", same ? "the sheet's own bytes" : "other bytes than the sheet's");
    return same;
}

/* ---- The calls on one sheet ---- */

/* Solves by rounds to the end; a finished state takes no more rounds. Returns 1 if that gives the answer of
 * sheet_solve, in every bit. */
static int solve_by_rounds(void) {
    if (!solve_begin()) return 0;
    do {
        if (!solve_on()) return 0;
    } while (running.run != FINISHED);
    const struct answer *a = &at_once, *b = &by_rounds;
    int same = memcmp(a->poses, b->poses, sizeof a->poses) == 0 &&
               memcmp(a->frames, b->frames, sizeof a->frames) == 0 &&
               memcmp(a->errors, b->errors, sizeof a->errors) == 0 && a->converged == b->converged;
    printf("solve and solve_on: %s\n", same ? "the same in every bit" : "different");
    return same;
}

/* Makes all calls on the sheet. Every call tests the whole sheet first. So judging a relation that no sheet has says
 * whether the sheet itself is accepted: the number is 13 then. */
static int make_calls(const char *name) {
    uint32_t number = sheet_judge(sheet, sheet_len, NONE);
    if (number != NO_SUCH_RELATION) return !refused(name, number);
    bodies = word_at(sheet + 2);
    relations = word_at(sheet + 4);
    printf("%s: bytes %u, bodies %d, relations %d\n", name, (unsigned)sheet_len, bodies, relations);
    memset(&at_once, 0, sizeof at_once);
    memset(&by_rounds, 0, sizeof by_rounds);
    return judge() && joint_reading() && snap() && solve() && solve_with() && solve_by_rounds() && dof() &&
           write_again();
}

int main(int argc, char **argv) {
    int good = 1;
    if (argc < 2) {
        fprintf(stderr, "calls SHEET..\n");
        return 2;
    }
    for (int i = 1; i < argc; i++) {
        FILE *file = fopen(argv[i], "rb");
        if (file == NULL) {
            fprintf(stderr, "calls: cannot read %s\n", argv[i]);
            return 2;
        }
        sheet_len = fread(sheet, 1, sizeof sheet, file);
        fclose(file);
        const char *slash = strrchr(argv[i], '/');
        if (!make_calls(slash == NULL ? argv[i] : slash + 1)) good = 0;
    }
    return good ? 0 : 1;
}
