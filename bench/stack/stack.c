/* The stack that each function of libkemroul.a needs, measured (x86-64 Linux; `make stack`).
 *
 * Each call runs on a stack of its own that was filled with a pattern. What is counted reaches from the stack
 * pointer just before the call, so without the arguments that the caller pushes, down to the lowest byte that was
 * changed: the return address, the functions' frames, and what memcpy and memset used. The largest call of a function
 * then runs twice more, in a child process, above a page that may not be touched: with just that much stack, where it
 * must end, and with 64 bytes less, where it must not (not tried with functions that need less than 64).
 *
 * The cases are the largest that are taken: 512 readings in 32 groups, every curve, one and two effects, maximum
 * likelihood and REML, every order of quadrature. For the fits it also prints the most rounds and trials.
 */
#define _GNU_SOURCE
#include "kemroul.h"

#include <math.h>
#include <stdint.h>
#include <stdio.h>
#include <stdlib.h>
#include <string.h>
#include <sys/mman.h>
#include <sys/wait.h>
#include <ucontext.h>
#include <unistd.h>

enum { READINGS = 512, GROUPS = 32, ROOM = 1 << 20, PAGE = 4096, PATTERN = 0xa5 };

/* One call's arguments and answers. */
static struct {
    uint64_t code, group_count, effects[2], groups[READINGS], max_rounds, reml, n_agq;
    size_t p, k, readings;
    double doses[READINGS], grams[READINGS], starts[4], lower[4], upper[4], theta[3];
    double values[4], effects_out[2 * GROUPS], x, floats[5];
    uint64_t number, counts[3];
} c;

/* The stack pointer just before the call: this file is compiled so that a function moves it once only. */
static char *at_call;
#define HERE __asm__ volatile("mov %%rsp, %0" : "=m"(at_call) : : "memory")

#define PROBLEM                                                                                                        \
    c.code, c.doses, c.readings, c.grams, c.readings, c.groups, c.readings, c.group_count, c.effects, c.k, c.starts,   \
        c.p, c.lower, c.p, c.upper, c.p, c.lower, c.p, c.upper, c.p

static void call_exp(void) { HERE; c.floats[0] = kemroul_exp(c.x); }
static void call_ln(void) { HERE; c.floats[0] = kemroul_ln(c.x); }
static void call_sqrt(void) { HERE; c.floats[0] = kemroul_sqrt(c.x); }
static void call_gh_order(void) { HERE; c.number = kemroul_gh_order(c.n_agq); }

static void call_curve(void)
{
    HERE;
    c.number = kemroul_curve(c.code, c.starts, c.p, c.x, &c.floats[0], &c.floats[1], &c.floats[2], &c.floats[3],
                             &c.floats[4]);
}

static void call_start(void)
{
    HERE;
    c.number = kemroul_start(c.code, c.doses, c.readings, c.grams, c.readings, c.values, c.p);
}

static void call_fit(void)
{
    HERE;
    c.number = kemroul_fit(PROBLEM, c.theta, c.k == 1 ? 1 : 3, c.max_rounds, c.values, c.p, c.effects_out,
                           c.group_count * c.k, &c.floats[0], &c.counts[0], &c.counts[1], &c.counts[2]);
}

static void call_criterion(void)
{
    HERE;
    c.number = kemroul_criterion(PROBLEM, c.theta, c.k == 1 ? 1 : 3, c.max_rounds, c.reml, c.n_agq, c.values, c.p,
                                 c.effects_out, c.group_count * c.k, &c.floats[0], &c.floats[1]);
}

static void call_search(void)
{
    HERE;
    c.number = kemroul_search(PROBLEM, c.max_rounds, c.reml, c.n_agq, 1000, &c.floats[0], &c.floats[1], &c.counts[0],
                              &c.counts[1], &c.counts[2]);
}

static ucontext_t here, there;

/* Runs the call on `size` bytes of stack that end at `top`. */
static void run_on(char *top, size_t size, void (*call)(void))
{
    getcontext(&there);
    there.uc_stack.ss_sp = top - size;
    there.uc_stack.ss_size = size;
    there.uc_link = &here;
    makecontext(&there, call, 0);
    swapcontext(&here, &there);
}

static void fail(const char *what)
{
    fprintf(stderr, "stack: %s\n", what);
    exit(1);
}

/* The bytes below the stack pointer of the call. */
static size_t measured(char *room, void (*call)(void))
{
    char *low = room;
    memset(room, PATTERN, ROOM);
    run_on(room + ROOM, ROOM, call);
    while ((unsigned char)*low == PATTERN) low++;
    if (low == room) fail("the room is too small");
    return (size_t)(at_call - low);
}

/* Whether the call ends normally with so many bytes, and a page below them that may not be touched. */
static int holds(char *room, size_t bytes, void (*call)(void))
{
    int status;
    size_t above = (size_t)(room + ROOM - at_call);
    size_t size = (above + bytes + 15) / 16 * 16;
    pid_t child = fork();
    if (child == 0) {
        char *guard = room + ROOM / 2;
        if (mprotect(guard - PAGE, PAGE, PROT_NONE) != 0) _exit(2);
        run_on(guard + size, size, call);
        _exit(0);
    }
    if (child < 0 || waitpid(child, &status, 0) != child) fail("no child process");
    return WIFEXITED(status) && WEXITSTATUS(status) == 0;
}

static char *room;
static size_t most;
static int held;

static void measure(void (*call)(void))
{
    size_t bytes;
    c.number = 0;
    bytes = measured(room, call);
    if (c.number != 0 && call != call_gh_order) fail("a case was refused");
    if (bytes > most) {
        most = bytes;
        held = holds(room, bytes, call) && (bytes < 64 || !holds(room, bytes - 64, call));
    }
}

static void report(const char *name, const char *cases)
{
    printf("%-18s %7zu  %-4s %s\n", name, most, held ? "yes" : "NO", cases);
    most = 0;
}

static double noise(void)
{
    static uint64_t seed = 20261116;
    seed = seed * 6364136223846793005u + 1442695040888963407u;
    return (double)(seed >> 40) / (double)(1 << 24) - 0.5;
}

/* 512 readings on curve `code`, with another first value for each group, the doses from high to low. */
static void readings_of(uint64_t code)
{
    static const double values[5][4] = {
        {0}, {200, 725, 350, 0}, {90, 20, -6, 0}, {80, 300, 0, 0}, {20, 200, 725, 350}};
    static const size_t numbers[5] = {0, 3, 3, 2, 4};
    double own[4], unused[4];
    size_t i;
    c.code = code;
    c.p = numbers[code];
    c.readings = READINGS;
    c.group_count = GROUPS;
    for (i = 0; i < READINGS; i++) {
        memcpy(own, values[code], sizeof own);
        c.groups[i] = i % GROUPS;
        own[0] += (double)(i % GROUPS) - 15.5;
        c.doses[i] = 1600 - 3.0 * (double)i;
        kemroul_curve(code, own, c.p, c.doses[i], &c.grams[i], &unused[0], &unused[1], &unused[2], &unused[3]);
        c.grams[i] += 8 * noise();
    }
    for (i = 0; i < 4; i++) {
        c.starts[i] = 1.3 * values[code][i];
        c.lower[i] = -HUGE_VAL;
        c.upper[i] = HUGE_VAL;
    }
}

static uint64_t most_rounds, most_trials;

/* The cases of fit, criterion and search on one curve, for one effect or two. */
static void each_effect(void (*call)(void))
{
    for (c.k = 1; c.k <= 2; c.k++) {
        c.effects[0] = 0;
        c.effects[1] = 1;
        c.theta[0] = 4;
        c.theta[1] = c.k == 1 ? 0 : 0.5;
        c.theta[2] = 2;
        if (call == call_search && c.k == 2) return;
        for (c.reml = 0; c.reml <= 1; c.reml++)
            for (c.n_agq = 1; c.n_agq <= 11; c.n_agq += 2) {
                if (call == call_fit && (c.reml || c.n_agq > 1)) continue;
                if (call == call_search && c.n_agq != 1 && c.n_agq != 11) continue;
                measure(call);
                if (call == call_fit && c.counts[1] > most_rounds) most_rounds = c.counts[1];
                if (call == call_fit && c.counts[2] > most_trials) most_trials = c.counts[2];
            }
    }
}

static void each_float(void (*call)(void))
{
    static const double some[] = {0, -0.0, 1, 2, -1, 0.3, -0.3, 700, -740, 1e300, 5e-324, 1e-310, HUGE_VAL, -HUGE_VAL, 0.1};
    size_t i;
    for (i = 0; i < sizeof some / sizeof *some; i++) {
        c.x = some[i];
        measure(call);
    }
}

int main(void)
{
    uint64_t code;
    room = mmap(NULL, ROOM, PROT_READ | PROT_WRITE, MAP_PRIVATE | MAP_ANONYMOUS, -1, 0);
    if (room == MAP_FAILED) fail("no memory");
    printf("%-18s %7s  %-4s %s\n", "function", "bytes", "held", "cases");
    each_float(call_exp);
    report("kemroul_exp", "15 arguments");
    each_float(call_ln);
    report("kemroul_ln", "15 arguments");
    each_float(call_sqrt);
    report("kemroul_sqrt", "15 arguments");
    for (c.n_agq = 0; c.n_agq < 13; c.n_agq++) measure(call_gh_order);
    report("kemroul_gh_order", "0 to 12");
    for (code = 1; code <= 4; code++) {
        readings_of(code);
        each_float(call_curve);
    }
    report("kemroul_curve", "four curves, 15 doses");
    for (code = 1; code <= 4; code++) {
        readings_of(code);
        measure(call_start);
    }
    report("kemroul_start", "four curves, 512 readings, doses falling");
    c.max_rounds = 1000;
    for (code = 1; code <= 4; code++) {
        readings_of(code);
        each_effect(call_fit);
    }
    report("kemroul_fit", "four curves, 512 readings, 32 groups, one and two effects");
    for (code = 1; code <= 4; code++) {
        readings_of(code);
        each_effect(call_criterion);
    }
    report("kemroul_criterion", "the same, with ML and REML and each order from none to 11");
    c.max_rounds = 50;
    for (code = 1; code <= 4; code++) {
        readings_of(code);
        each_effect(call_search);
    }
    report("kemroul_search", "the same for one effect, orders none and 11, 50 rounds allowed");
    printf("most rounds and trials of these fits: %llu, %llu\n", (unsigned long long)most_rounds,
           (unsigned long long)most_trials);
    return 0;
}
