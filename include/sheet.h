/* Placement of movement parts: the calls on a sheet, and the call that writes one.
 *
 * Every call but sheet_write takes the sheet's bytes. It gives 0 if the call is accepted, and otherwise the number of the
 * first test that refuses it; a refused call changes nothing that was lent to it, the single numbers included:
 *
 *    1  the sheet has under 24 bytes
 *    2  the version, or a 0 of the header, is wrong
 *    3  more than 64 bodies, or more than 128 relations
 *    4  an offset or the length is wrong, or the bytes differ from the length
 *    5  a byte is outside its values, or a field that is not used is not 0
 *    6  an end names no body
 *    7  a double is a NaN or over its limit
 *    8  the drag is neither 65535, for none, nor the number of a body
 *    9  the scratch is too short
 *   10  an output slice or a running state is too short, or for sheet_write what it reads
 *   11  judging: the law does not suit the two ends
 *   12  judging: a tangent's ends are not round, or not round with a plane
 *   13  the sheet has no such relation
 *   14  a wheel of a gear has 0 teeth, or more than 400
 *   15  a parameter of sheet_solve_with, or of a call that solves by rounds, is a NaN or outside its range
 *   16  solving by rounds: the portion is 0 or over 1000, or the unknown or row count that is handed over is not the sheet's
 *
 * Tests 1 to 4 come first, then each body in order by 5 and 7, then each relation in order by 5, 14, 6 and 7, then 13, 8, 11,
 * 12, 15, 16, 10, 9. A test of what a call does not take is skipped. sheet_write has an order of its own, below.
 *
 * A call allocates no memory and keeps nothing after it returns. It reads the sheet, or the scene that it writes a sheet of,
 * and writes only where its output and scratch pointers point; a running state is an output too. No pointer may be null. No
 * output or scratch may overlap another one, or anything else that the call reads. Every double is at an address that is a
 * multiple of 8, every uint32_t at a multiple of 4 and every uint16_t at a multiple of 2; bytes may be at any address. Lengths
 * are counted in elements: in bytes for a sheet, in doubles for a slice of doubles.
 */
#ifndef SHEET_H
#define SHEET_H

#include <stddef.h>
#include <stdint.h>

#ifdef __cplusplus
extern "C" {
#endif

/* Whether the relation suits its ends: 0, or 11 or 12, or the number of another test. A gear suits any ends. */
uint32_t sheet_judge(const uint8_t *sheet, size_t sheet_len, uint16_t relation);

/* Where a joint stands at the sheet's frames, as its own offset (millimetres) and angle (radians) are measured. Of any other
 * relation, a gear too, the ends a and b are read as if a joint joined them. */
uint32_t sheet_joint_reading(const uint8_t *sheet, size_t sheet_len, uint16_t relation, double *offset, double *angle);

/* The motion of end b's body that makes the relation hold by itself: its first 12 doubles are nine turning entries by row
 * and the position. A gear's moves nothing: no turning, position 0. motion_len is at least 12; what stands after the twelfth
 * double is kept. */
uint32_t sheet_snap(const uint8_t *sheet, size_t sheet_len, uint16_t relation, double *motion, size_t motion_len);

/* Where each body stands, how far off each relation is, and whether all of them hold. m and k are the sheet's numbers of
 * bodies and relations.
 *
 *   drag       the number of the body that was moved by hand, which stays as near where it was put as it may; 65535 for none
 *   scratch    at least R*n + R*R + R*(R+1)/2 + 8*R + 8*n + 32*m doubles, where R is the number of rows of all relations, at
 *              most 7*k, and n is six times the number of unfixed bodies that relations name, symmetry's plane and a gear's
 *              carrier included, at most 6*m. What stands in it at entry has no say in the answer, and an accepted call leaves
 *              any doubles in it.
 *   poses      at least 12*m doubles: for each body nine turning entries by row, then the position
 *   frames     at least 12*m doubles: for each body its frame at that pose: origin, x, y, z
 *   errors     at least k doubles: for each relation the largest magnitude among its rows at the poses, 0 if it has no rows;
 *              for a gear in radians of which 2 pi are one tooth
 *   converged  one byte: 1 if every error is at most 1e-9, else 0
 *
 * Another drag is refused by 8, short poses, frames or errors by 10, and short scratch by 9. What stands in poses, frames and
 * errors past these lengths is kept. The work ends after at most two runs of 60 rounds; sheet_solve_with is told how many. */
uint32_t sheet_solve(const uint8_t *sheet, size_t sheet_len, uint16_t drag, double *scratch, size_t scratch_len, double *poses,
                     size_t poses_len, double *frames, size_t frames_len, double *errors, size_t errors_len, uint8_t *converged);

/* sheet_solve, with what it otherwise takes as given; the ends of each range are in it.
 *
 *   tolerance    1e-12 to 1e-3: a run ends where every row is at most this, and converged is 1 exactly if every error is.
 *                sheet_solve takes 1e-9.
 *   rounds       1 to 1000: the most rounds of a run; there are at most two runs. sheet_solve takes 60.
 *   row_limit    1 to 800: with more rows than this no round is made; the bodies stay where they are, or are turned slightly
 *                if that brings the largest row down. sheet_solve takes 800.
 *   drag_weight  1 to 1e8: how many times as much the dragged body weighs as without a drag. With 1 it gives way as any other;
 *                the larger, the more the others come to it. sheet_solve takes 10000.
 *
 * For a class of beginners 1e-3 is enough: 1 then says that every row is at most a thousandth, for a distance a micrometre
 * along each axis, and the work ends earlier. For finishing, 1e-12: 1 then says that every row is at most that, and 0 may
 * mean no more than that doubles come no nearer at this size; the errors tell how near they came. A row is meant as doubles
 * give it, and as the errors tell it, whatever the tolerance.
 *
 * A parameter that is a NaN or outside its range is refused by 15, after 8 and before 10 and 9. All else is as for
 * sheet_solve, and with 1e-9, 60, 800 and 10000 so is the answer, bit for bit. */
uint32_t sheet_solve_with(const uint8_t *sheet, size_t sheet_len, uint16_t drag, double tolerance, uint32_t rounds,
                          uint32_t row_limit, double drag_weight, double *scratch, size_t scratch_len, double *poses,
                          size_t poses_len, double *frames, size_t frames_len, double *errors, size_t errors_len,
                          uint8_t *converged);

/* sheet_solve_with in portions of rounds, to watch the parts settle: sheet_solve_begin begins, and sheet_solve_on goes on from
 * what the call before left, until run is 3. In between the caller holds all that there is of it, a running state:
 *
 *   unknowns   n, six times the number of unfixed bodies that relations name, at most 6*m
 *   rows       R, the number of rows of all relations, at most 7*k
 *   done       how many rounds the present run has made
 *   run        1 in the first run, 2 in the retry, 3 finished
 *   state      at least 1 + 2*n + R doubles: the damping; the n unknowns, for each such body in order three of its shift in
 *              millimetres and three of its turn in radians, from where the sheet has it; where there is a retry the n unknowns
 *              that the first run ended with, else n times 0; the R rows at the unknowns. What stands in it past these is kept.
 *
 * sheet_solve_begin writes all five, whatever stood there. sheet_solve_on is handed unknowns and rows as numbers, and writes
 * the other three.
 *
 *   portion    1 to 1000: how many rounds the call makes, those of both runs counted together; fewer only where it finishes
 *
 * The set, the drag and the scratch are those of sheet_solve_with, and each call has its own. Each call fills in poses, frames,
 * errors and converged as sheet_solve does, at the unknowns that it leaves, in the retry at the retry's; converged is 1 exactly
 * if every error is at most this call's tolerance, whether the state is finished or not.
 *
 * By one set and drag all portions come to one end: beginning with p and going on with q leaves what beginning with p + q does,
 * bit for bit; after at most two runs of the set's rounds the state is finished, with the answer of sheet_solve_with; and a
 * finished state stays as it is, by any set, but for the flag.
 *
 * With another set or drag between two calls the unknowns and the damping are carried over. A run ends where every row is at
 * most the call's tolerance, where a round finds nothing better, and with as many rounds as the call's set allows, or more. That
 * is judged after each round, and in going on before the first one too: a coarser tolerance, or no more rounds than are done,
 * end the run there. The call that ends the first run begins the retry, with a slight turn, if the run did not converge and n
 * is not 0. Where the retry ends it is kept if it converged, or if its largest row is smaller than the first run's; else the
 * first run's unknowns come back. The row limit counts where a run begins and nowhere else: with more rows it makes no round.
 *
 * All this is said of a state that sheet_solve_begin began and sheet_solve_on went on with, over one sheet. Of any other, with
 * whatever doubles in it, no more is said than that it is accepted, that at most portion rounds are made, and that nothing else
 * is written than what the call fills in. Any run but 1 and 2 counts as finished, and 3 is left.
 *
 * Another drag is refused by 8, a bad parameter by 15, a portion that is 0 or over 1000 by 16, and so are counts that differ
 * from the sheet's; then a short state, short poses, frames or errors by 10, and short scratch by 9. A refused call leaves all
 * that the caller holds as it was, unknowns, rows, done and run too. */
uint32_t sheet_solve_begin(const uint8_t *sheet, size_t sheet_len, uint16_t drag, double tolerance, uint32_t rounds,
                           uint32_t row_limit, double drag_weight, uint32_t portion, uint32_t *unknowns, uint32_t *rows,
                           uint32_t *done, uint8_t *run, double *state, size_t state_len, double *scratch, size_t scratch_len,
                           double *poses, size_t poses_len, double *frames, size_t frames_len, double *errors,
                           size_t errors_len, uint8_t *converged);
uint32_t sheet_solve_on(const uint8_t *sheet, size_t sheet_len, uint16_t drag, double tolerance, uint32_t rounds,
                        uint32_t row_limit, double drag_weight, uint32_t portion, uint32_t unknowns, uint32_t rows,
                        uint32_t *done, uint8_t *run, double *state, size_t state_len, double *scratch, size_t scratch_len,
                        double *poses, size_t poses_len, double *frames, size_t frames_len, double *errors, size_t errors_len,
                        uint8_t *converged);

/* What freedom each body has with the others held still at the sheet's frames, and how much freedom the whole assembly has.
 * m and k are the sheet's numbers of bodies and relations.
 *
 *   scratch    at least R*n + 2*n*n + 8*R + 8*n + 32*m doubles, where R is the number of rows of all relations, at most 7*k,
 *              and n is six times the number of unfixed bodies that relations name, symmetry's plane and a gear's carrier
 *              included, at most 6*m. What stands in it at entry has no say in the answer, and an accepted call leaves any
 *              doubles in it.
 *   freedoms   at least 29*m doubles: for each body how many ways it may slide and about how many lines it may turn, each 0
 *              to 3; then three slides, each a direction; then three turns, each an axis and a point of it. What is not used
 *              is 0, and a fixed body's 29 doubles are all 0.
 *   free       the whole assembly's freedom, all bodies moving together; it is not the sum over the bodies
 *
 * Short freedoms are refused by 10, and short scratch by 9. What stands in freedoms past 29*m is kept. */
uint32_t sheet_dof(const uint8_t *sheet, size_t sheet_len, double *scratch, size_t scratch_len, double *freedoms,
                   size_t freedoms_len, uint32_t *free);

/* Writes the sheet of a scene: m bodies and k relations, taken apart into bytes, words and numbers, all bodies first.
 *
 *   bytes      2 a body: fixed (0 or 1), and one that is 0; then 9 a relation: law, joint, flag, then primitive and mirrored
 *              of end a, of end b and of the third end; at least 2*m + 9*k
 *   words      5 a relation: the teeth of a and of b, then the bodies of a, of b and of the third end, 65535 for the ground;
 *              at least 5*k
 *   numbers    16 a body: origin, x, y, z of its frame, centre, size; then 29 a relation: offset, angle, reference, then point,
 *              direction, circle radius and end radius of a, of b and of the third end; at least 16*m + 29*k
 *   sheet      at least 24 + 136*m + 264*k bytes; what stands in it past these is kept
 *
 * A field that the law or the primitive does not use is 0: as a number +0, and -0 is refused by 5; an unused third end is 0
 * throughout, its body's word too. The numbers are those of the sheet, so what is written is read back with the same bits, -0
 * of a used number too; a NaN is refused, by 7 where it is used and by 5 where it is not. What stands past m bodies and k
 * relations is not looked at.
 *
 * Tests: 3 for m and k; 10 for short bytes, words or numbers; each body in order by 5 and 7, each relation in order by 5, 14,
 * 6 and 7, which give the number that reading the sheet would; 10 for a short sheet. A scene that passes has this one sheet:
 * taking an accepted sheet apart and writing it gives its bytes again. */
uint32_t sheet_write(uint16_t m, uint16_t k, const uint8_t *bytes, size_t bytes_len, const uint16_t *words, size_t words_len,
                     const double *numbers, size_t numbers_len, uint8_t *sheet, size_t sheet_len);

#ifdef __cplusplus
}
#endif

#endif
