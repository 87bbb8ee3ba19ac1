/* Kemroul: the functions of libkemroul.a (`make archive`).
 *
 * Results. Every result is proved to equal a definition, bit for bit, for every input; docs/PROMISES.md says which.
 * Any NaN counts as the same value: which of its bit patterns is returned is left open.
 *
 * Lists. A list is a pointer and its number of elements. The caller owns every list and every place; a call reads the
 * `const` ones, writes the others, keeps no pointer after it returns, and frees nothing. What C asks is all that is
 * asked: that the pointer of a list of n elements points to n of them, that other pointers point to one, and that each
 * is aligned for its type. A list of 0 elements is not touched, so its pointer may be NULL; any other may not.
 *
 * Overlap. No list or place that a call writes may overlap another one that it writes, or one that it reads: the
 * proofs count on it, and nothing tests it. Lists that are only read may overlap, or be the same one (`lower` and
 * `group_lower`, say).
 *
 * Writing. A call that is refused changes nothing behind any pointer (of the bits of a NaN there this is tested, of all
 * else proved: docs/PROMISES.md). One that is not writes every place and every element of the lists it was lent. Until
 * it returns, what they hold is not defined.
 *
 * Threads and memory. No function allocates, locks, does input or output, sets errno, or has data that outlives a
 * call: the archive has no writable data. Any number of threads may call at once, as long as no two calls write the
 * same place and nobody writes what a call reads. Given its stack, every call ends; none panics or aborts.
 *
 * Needs. From the C library memcpy and memset, and nothing else. The archive is one object for x86-64, System V ABI
 * (Linux and other ELF systems), position-independent, with the instructions that every x86-64 has. As this ABI has
 * it, the stack is aligned to 16 bytes at a call, and the 128 bytes below the stack pointer may be used. The
 * floating-point unit must be as a C program finds it: round to nearest, subnormals kept (neither FTZ nor DAZ),
 * exceptions masked. Calls raise its sticky flags and leave its control alone.
 *
 * Stack, in bytes, the return address with it, without the arguments that the caller passes there: a bound over all
 * paths of the machine code; on the largest inputs as much was measured
 * (2026-11-29, x86-64, kit logic dac8208d650f15bf, gcc 12.2 and glibc 2.36 around it; `make stack` repeats both):
 *   kemroul_search 49,256    kemroul_criterion 48,120    kemroul_fit 48,104    kemroul_start 16,864
 *   kemroul_curve 200    kemroul_sqrt 8    kemroul_exp 8    kemroul_ln 8    kemroul_gh_order 8
 * So 50 KiB are enough for any of them. Earlier archives needed at most 66,936 bytes (the same kit), and 60,296 (an older
 * kit, logic 097e4c862dff5811).
 *
 * Time. No time is promised. A fit's grows with its trials times its readings. Proved is that it makes at most 240
 * trials for each round that begins, so at most 240 times max_rounds: 240,000 for the 1,000 rounds that may be allowed.
 * Seen (2026-11-16, `make trials`): in 5,000 fits of realistic readings with 20 to 1,000 rounds allowed, 541 trials in
 * the mean and 20,625 at most (in 1,000 rounds); in 16,589 fits of all kinds, many made to find trouble, 229 and 18,679.
 * 240 trials in each round did occur, in fits of one round. A search makes at most 29 fits. To bound its time, choose
 * max_rounds.
 */
#ifndef KEMROUL_H
#define KEMROUL_H

#include <stddef.h>
#include <stdint.h>

#ifdef __cplusplus
extern "C" {
#endif

/* e to the power x and the natural logarithm of x, as fdlibm 5.3's e_exp.c and e_log.c compute them,
 * each operation rounded once in the file's order: the same bits on every x86-64 board.
 * exp: +infinity above 709.78..., +0 below -745.13...; ln: -infinity at both zeros, NaN below zero. NaN at NaN. */
double kemroul_exp(double x);
double kemroul_ln(double x);

/* The square root, rounded to the nearest (IEEE 754): NaN below zero, -0 at -0, NaN at NaN. */
double kemroul_sqrt(double x);

/* The order of the Gauss-Hermite rule taken where `asked` points are asked for: the first of 3, 5, 7, 9,
 * 11 not below it, 11 above 11, and 0 where no rule applies (0 or 1 asked). */
uint64_t kemroul_gh_order(uint64_t asked);

/* The functions below return 0, or the number of the first fault that a call has, in the order of the numbers:
 *   1  the curve's code is not 1 to 4
 *   2  no readings (where a fit needs them), over 512, or lists of readings that are unequal in length
 *   3  no groups, or over 32
 *   4  a group number that is not below the group count
 *   5  effects not one or two, an index that is not below p, or two equal
 *   6  a wrong number of curve values, starts, bounds or group bounds (p each), or of thetas (1, or 3 for two effects)
 *   7  a reading, start or theta that is not finite; a bound that is NaN, a lower one of +infinity, an upper of -infinity
 *   8  a lower bound above its upper, group bounds included
 *   9  a list for results of the wrong length
 *  10  over 1,000 rounds; for a search also two effects, or over 1,000 narrowings
 * A call may have any of these faults: looking beforehand is not needed.
 *
 * Curves, by code, with the number p of their values, the values' names in order, and the grams at a dose x
 * (the definitions give the order of the operations):
 *   1  SSlogis   3  Asym, xmid, scal      Asym / (1 + exp((xmid - x) / scal))
 *   2  SSasymp   3  Asym, R0, lrc         Asym - (Asym - R0) * exp(-exp(lrc) * x)
 *   3  SSmicmen  2  Vm, K                 Vm * (x / (K + x))
 *   4  SSfpl     4  A, B, xmid, scal      A + (B - A) / (1 + exp((xmid - x) / scal))
 */

/* One curve at one dose. Any float is taken; the results may be infinite or NaN. Refuses 1, then 6.
 *   values, n_values   the p values of curve `code`, in the order above
 *   mu                 the grams at `dose`
 *   d0 .. d3           the gradient by the first value, the second and so on; +0 past the p-th */
uint64_t kemroul_curve(uint64_t code, const double *values, size_t n_values, double dose,
                       double *mu, double *d0, double *d1, double *d2, double *d3);

/* Starting values for a fit of curve `code`, from 0 to 512 readings; pairs that are not finite are skipped.
 * Refuses 1, then 2 (not for 0 readings), then 9.
 *   doses, grams       the readings: two lists of one length
 *   values, n_values   written: the p starting values
 * They may be infinite or NaN where the readings overflow; a fit then refuses them with 7. Two of them are not to be
 * handed to a fit as they are; they are so in the software that this follows (docs/DIFFERENCES.md, findings 2 and 4):
 *   curve 1            for readings that rise with the dose scal is negative: turn its sign (examples/c/refit.c does)
 *   curve 2            lrc is the rate ln 2 / xmid, where the curve takes the logarithm of a rate: take kemroul_ln of it
 *                      where it is positive. From the rate itself exp(lrc) is far off, with doses in the thousands both
 *                      gradients vanish, and the fit answers a flat line and says that it converged */
uint64_t kemroul_start(uint64_t code, const double *doses, size_t n_doses, const double *grams, size_t n_grams,
                       double *values, size_t n_values);

/* The fit of curve `code` at one theta. Refuses 1 to 10. Reads
 *   doses, grams, groups    the readings, 1 to 512, as three lists of one length; a group number counts from 0
 *   group_count             1 to 32; a group without readings is taken
 *   effects                 the indices (from 0, below p) of the one or two curve values that have an effect in each
 *                           group: there a group's own curve value is the common one plus its effect
 *   starts                  p starting values
 *   lower, upper            p bounds each for the curve values; -infinity and +infinity where there is none. Equal
 *                           bounds hold a value fixed
 *   group_lower, _upper     p bounds each for a group's own curve value, counted where an effect stands. They hold to
 *                           rounding only, since an effect is stored as a difference
 *   theta                   how freely a group's own value may differ: an effect b adds (b / theta)^2 to the sum of the
 *                           squared differences. So theta is the effects' standard deviation divided by that of a
 *                           reading, spread = theta * sqrt(sigma2), and not the spread itself: R's nlme finds a spread
 *                           of 3.65 and a residual deviation of 0.719 for Loblolly, and that is theta 5.08 here.
 *                           The project's scope paper, document 01, has 'theta in absolute units; the penalty is not
 *                           scaled by the residual variance': (b / theta)^2 is added as it is, not times sigma2. For
 *                           two effects the lower factor by columns, in the same measure. Entries on the diagonal
 *                           below 1e-8 count as 1e-8
 *   max_rounds              at most so many rounds begin, 0 to 1,000. With 0 the start returns, adjusted (curves 1
 *                           and 4: a scal smaller than 1e-8 in size becomes 350), and within its bounds
 * and writes
 *   values                  p places: the curve values
 *   effects_out             group_count times n_effects places: group after group, each with its effects in order
 *   rss                     the sum of the squared differences, without the effects' penalty
 *   converged               1 where a step, proposed or accepted, was below 1e-10; otherwise 0: no trial won any
 *                           more, or the rounds were used up. With 0 too the lists hold the best state found
 *   rounds, trials          the rounds begun and the trials made
 * Proved for every fit that is not refused: the penalised sum of the start and of each accepted state falls strictly,
 * the last of these states is the one written, every curve value of these states and of every trial is a number within
 * its bounds (it may be infinite where they are), and *trials is at most 240 times *rounds. */
uint64_t kemroul_fit(uint64_t code, const double *doses, size_t n_doses, const double *grams, size_t n_grams,
                     const uint64_t *groups, size_t n_groups, uint64_t group_count,
                     const uint64_t *effects, size_t n_effects,
                     const double *starts, size_t n_starts, const double *lower, size_t n_lower,
                     const double *upper, size_t n_upper, const double *group_lower, size_t n_group_lower,
                     const double *group_upper, size_t n_group_upper,
                     const double *theta, size_t n_theta, uint64_t max_rounds,
                     double *values, size_t n_values, double *effects_out, size_t n_effects_out,
                     double *rss, uint64_t *converged, uint64_t *rounds, uint64_t *trials);

/* The criterion at one theta (the profiled deviance; lower is better). Reads what kemroul_fit reads, fits as it
 * does and refuses as it does; also reads
 *   reml               0: maximum likelihood; any other number: REML
 *   n_agq              the points of adaptive Gauss-Hermite quadrature, any number: kemroul_gh_order says which rule
 *                      is taken, 0 and 1 mean none; for two effects the rule is taken in each.
 *                      Read docs/DIFFERENCES.md before relying on it: leave it at 0 to choose theta
 * and writes
 *   values             as kemroul_fit does
 *   effects_out        as kemroul_fit does
 *   criterion          may be infinite or NaN
 *   sigma2             the residual variance, at least 1e-12 and never NaN; it may be infinite
 * Both have a form of their own for curve 2 with one effect, as in the software that this follows: sigma2 is the rss
 * alone, without the penalty, divided by the degrees of freedom, and the criterion adds the penalty and group_count
 * times the logarithm of theta squared where the other curves have a determinant with gradients in it. It is lower for a
 * better theta, but it is no deviance: do not compare it with another curve's, nor theta with another program's. */
uint64_t kemroul_criterion(uint64_t code, const double *doses, size_t n_doses, const double *grams, size_t n_grams,
                     const uint64_t *groups, size_t n_groups, uint64_t group_count,
                     const uint64_t *effects, size_t n_effects,
                     const double *starts, size_t n_starts, const double *lower, size_t n_lower,
                     const double *upper, size_t n_upper, const double *group_lower, size_t n_group_lower,
                     const double *group_upper, size_t n_group_upper,
                     const double *theta, size_t n_theta, uint64_t max_rounds, uint64_t reml, uint64_t n_agq,
                     double *values, size_t n_values, double *effects_out, size_t n_effects_out,
                     double *criterion, double *sigma2);

/* The search over theta from 0.2 to 20, for one effect: golden section over kemroul_criterion's criterion, each fit
 * from the same starts. Refuses as kemroul_fit does without 9 and without theta in 6 and 7; then 10 as above. Reads
 *   max_rounds, reml, n_agq   for each fit, as kemroul_criterion
 *   max_narrowings            at most so many narrowings, 0 to 1,000; 26 are enough
 * and writes
 *   theta, criterion          the middle of the last bracket, and the criterion there
 *   narrowings                those made
 *   converged                 1 where the last bracket is at most 1e-4 wide and the criterion is finite, otherwise 0
 *   fits                      the fits made
 * Proved, whatever the criterion answers, NaN included: *narrowings is exactly the smaller of 26 and max_narrowings,
 * and *fits is *narrowings plus 3. It writes no list: kemroul_fit or kemroul_criterion at *theta gives the curve. */
uint64_t kemroul_search(uint64_t code, const double *doses, size_t n_doses, const double *grams, size_t n_grams,
                     const uint64_t *groups, size_t n_groups, uint64_t group_count,
                     const uint64_t *effects, size_t n_effects,
                     const double *starts, size_t n_starts, const double *lower, size_t n_lower,
                     const double *upper, size_t n_upper, const double *group_lower, size_t n_group_lower,
                     const double *group_upper, size_t n_group_upper,
                     uint64_t max_rounds, uint64_t reml, uint64_t n_agq, uint64_t max_narrowings,
                     double *theta, double *criterion, uint64_t *narrowings, uint64_t *converged, uint64_t *fits);

#ifdef __cplusplus
}
#endif

#endif
