/* Refits the canisters of one machine: starting values, the search over theta, the fit there, and each canister's
 * curve. `make -C examples/c run` builds and runs it, once `make archive` has written the archive.
 *
 * The readings are R's data set Orange: the dose is a tree's age in days, the weight its circumference in
 * millimetres, and a tree is a canister. lme4's nlmer fits them with theta 4.0350 and deviance 263.14.
 */
#include "kemroul.h"

#include <inttypes.h>
#include <math.h>
#include <stdio.h>

#define COUNT(list) (sizeof(list) / sizeof *(list))

enum { LOGISTIC = 1, VALUES = 3, CANISTERS = 5, READINGS = 35, ROUNDS = 200, NARROWINGS = 30 };
enum { ASYM, XMID, SCAL };

static const double doses[READINGS] = {
    118, 484, 664, 1004, 1231, 1372, 1582, 118, 484, 664, 1004, 1231, 1372, 1582, 118, 484, 664, 1004,
    1231, 1372, 1582, 118, 484, 664, 1004, 1231, 1372, 1582, 118, 484, 664, 1004, 1231, 1372, 1582};
static const double grams[READINGS] = {
    30, 58, 87, 115, 120, 142, 145, 33, 69, 111, 156, 172, 203, 203, 30, 51, 75, 108,
    115, 139, 140, 32, 62, 112, 167, 179, 209, 214, 30, 49, 81, 125, 142, 174, 177};
static const uint64_t canisters[READINGS] = {
    0, 0, 0, 0, 0, 0, 0, 1, 1, 1, 1, 1, 1, 1, 2, 2, 2, 2, 2, 2, 2, 3, 3, 3, 3, 3, 3, 3, 4, 4, 4, 4, 4, 4, 4};

/* Asym differs from canister to canister; no value is bounded. */
static const uint64_t effects[1] = {ASYM};
static const double lower[VALUES] = {-HUGE_VAL, -HUGE_VAL, -HUGE_VAL};
static const double upper[VALUES] = {HUGE_VAL, HUGE_VAL, HUGE_VAL};

/* The arguments that the search and the fit share, in the header's order. What is only read may be lent twice. */
#define PROBLEM(starts)                                                                                      \
    LOGISTIC, doses, COUNT(doses), grams, COUNT(grams), canisters, COUNT(canisters), CANISTERS, effects,     \
        COUNT(effects), starts, VALUES, lower, VALUES, upper, VALUES, lower, VALUES, upper, VALUES

static const char *refusal(uint64_t number)
{
    static const char *const words[] = {
        "the curve's code is not 1 to 4",
        "no readings, over 512, or lists of readings of unequal length",
        "no canisters, or over 32",
        "a canister number not below the number of canisters",
        "not one or two effects, an index that the curve does not have, or two equal",
        "a wrong number of curve values, starts, bounds or thetas",
        "a reading, start or theta that is not finite, or a bound that none may be",
        "a lower bound above its upper",
        "a list for results of the wrong length",
        "over 1,000 rounds or narrowings, or a search with two effects"};
    return 1 <= number && number <= COUNT(words) ? words[number - 1] : "an unknown number";
}

/* Whether the call was refused, which is then told. */
static int refused(const char *call, uint64_t number)
{
    if (number == 0) return 0;
    fprintf(stderr, "%s was refused with %" PRIu64 ": %s\n", call, number, refusal(number));
    return 1;
}

static int find_starts(double starts[VALUES])
{
    if (refused("kemroul_start", kemroul_start(LOGISTIC, doses, COUNT(doses), grams, COUNT(grams), starts, VALUES)))
        return 0;
    printf("start      Asym %.4f  xmid %.4f  scal %.4f\n", starts[ASYM], starts[XMID], starts[SCAL]);
    /* Where weights rise with the dose the start's scal has the wrong sign: the library follows the software that
     * it was ported from (docs/DIFFERENCES.md, finding 2). A fit's trials raise a scal below 1e-6 to 1e-6, and the fit
     * ends there, in a step (deviance 367.67 instead of 263.17), so the sign is turned. With curve 2 (SSasymp) it is the
     * third value again: where it is positive, take kemroul_ln of it (finding 4). */
    starts[SCAL] = fabs(starts[SCAL]);
    return 1;
}

static int find_theta(const double starts[VALUES], double *theta)
{
    double criterion;
    uint64_t narrowings, converged, fits;
    uint64_t number = kemroul_search(PROBLEM(starts), ROUNDS, 0, 0, NARROWINGS, theta, &criterion, &narrowings,
                                     &converged, &fits);
    if (refused("kemroul_search", number)) return 0;
    printf("search     theta %.4f  deviance %.4f  (%" PRIu64 " narrowings, %" PRIu64 " fits)\n", *theta, criterion,
           narrowings, fits);
    /* Not refused, and yet not to be used: the criterion is not finite, or too few narrowings were allowed. */
    if (!converged) fprintf(stderr, "the search did not converge\n");
    return converged != 0;
}

static int find_curve(const double starts[VALUES], double theta, double values[VALUES], double own[CANISTERS])
{
    double rss, criterion, sigma2;
    uint64_t converged, rounds, trials;
    if (refused("kemroul_fit", kemroul_fit(PROBLEM(starts), &theta, 1, ROUNDS, values, VALUES, own, CANISTERS, &rss,
                                           &converged, &rounds, &trials)))
        return 0;
    printf("fit        Asym %.4f  xmid %.4f  scal %.4f\n", values[ASYM], values[XMID], values[SCAL]);
    printf("           rss %.4f  %s after %" PRIu64 " rounds, %" PRIu64 " trials\n", rss,
           converged ? "converged" : "stopped", rounds, trials);
    /* The same fit once more, for sigma2: it writes the same lists. */
    if (refused("kemroul_criterion", kemroul_criterion(PROBLEM(starts), &theta, 1, ROUNDS, 0, 0, values, VALUES, own,
                                                       CANISTERS, &criterion, &sigma2)))
        return 0;
    printf("           deviance %.4f  sigma2 %.4f\n", criterion, sigma2);
    return 1;
}

/* Each canister's curve: the common one with its own Asym. */
static int print_canisters(const double values[VALUES], const double own[CANISTERS], double dose)
{
    size_t i;
    for (i = 0; i < CANISTERS; i++) {
        double its[VALUES], mu, d0, d1, d2, d3;
        its[ASYM] = values[ASYM] + own[i];
        its[XMID] = values[XMID];
        its[SCAL] = values[SCAL];
        if (refused("kemroul_curve", kemroul_curve(LOGISTIC, its, VALUES, dose, &mu, &d0, &d1, &d2, &d3))) return 0;
        printf("canister %zu Asym %.4f  at dose %.0f: %.4f\n", i + 1, its[ASYM], dose, mu);
    }
    return 1;
}

int main(void)
{
    double starts[VALUES], theta, values[VALUES], own[CANISTERS];
    if (!find_starts(starts)) return 1;
    if (!find_theta(starts, &theta)) return 1;
    if (!find_curve(starts, theta, values, own)) return 1;
    return print_canisters(values, own, 1000) ? 0 : 1;
}
