/* The arguments beside the problem: settings at and past their limits, and arrays that are too short, just long enough, longer and empty. The
 * arrays lie in blocks of just their length, so that valgrind sees whatever is written or read after them. */
#include "worked.h"

#include <stdlib.h>
#include <string.h>

/* A block of `count` numbers, filled from some, or with 77. A length of 0 has a pointer too. */
static uint64_t *block(const uint64_t *from, size_t count) {
    uint64_t *made = (uint64_t *)malloc(count ? count * sizeof *made : 1);
    size_t i;
    if (!made) abort();
    for (i = 0; i < count; i++) made[i] = from ? from[i] : 77;
    return made;
}

static int is_filled(const uint64_t *items, size_t from, size_t count) {
    for (; from < count; from++)
        if (items[from] != 77) return 0;
    return 1;
}

/* A problem is solved into arrays of these lengths. Gives the status; nothing may be written with another one than 0, nor after the items of
 * the problem. */
static uint32_t solve(const struct worked *it, const struct modsched_problem *problem, uint64_t ratio, uint64_t ceiling, size_t times_count,
                      size_t alternatives_count, size_t numbers_count, struct modsched_answer *answer) {
    uint64_t *times = block(NULL, times_count), *alternatives = block(NULL, alternatives_count), *numbers = block(NULL, numbers_count);
    size_t operations = 0, values = 0;
    uint32_t status;
    memset(answer, 99, sizeof *answer);
    status = modsched_solve(problem, ratio, ceiling, times, times_count, alternatives, alternatives_count, numbers, numbers_count, answer);
    if (status == MODSCHED_SOLVED) {
        operations = problem->operations_count, values = problem->values_count;
        expect_of(memcmp(times, it->times, operations * sizeof *times) == 0, it->name, "times in a block");
        expect_of(memcmp(alternatives, it->alternatives, operations * sizeof *times) == 0, it->name, "alternatives in a block");
        expect_of(memcmp(numbers, it->numbers, values * sizeof *times) == 0, it->name, "numbers in a block");
    }
    expect_of(is_filled(times, operations, times_count) && is_filled(alternatives, operations, alternatives_count)
              && is_filled(numbers, values, numbers_count), it->name, "nothing else is written");
    free(times), free(alternatives), free(numbers);
    return status;
}

/* The status is 2, with this argument named and nothing else. */
static int misfits(const struct modsched_problem *problem, uint64_t ratio, uint64_t ceiling, size_t times, size_t alternatives, size_t numbers,
                   uint64_t misfit) {
    struct modsched_answer answer, wanted = no_answer();
    wanted.misfit = misfit;
    return solve(TAPS, problem, ratio, ceiling, times, alternatives, numbers, &answer) == MODSCHED_MISFIT && same_answer(&answer, &wanted);
}

static void settings(void) {
    const struct modsched_problem *taps = &TAPS->problem;
    struct modsched_answer answer;
    struct modsched_problem faulty = *taps;
    expect(misfits(taps, 0, 20, 6, 6, 6, MODSCHED_MISFIT_RATIO), "a ratio of 0");
    expect(misfits(taps, 65, 20, 6, 6, 6, MODSCHED_MISFIT_RATIO), "a ratio of 65");
    expect(misfits(taps, UINT64_MAX, 20, 6, 6, 6, MODSCHED_MISFIT_RATIO), "the greatest ratio");
    expect(misfits(taps, 6, 256, 6, 6, 6, MODSCHED_MISFIT_CEILING), "a ceiling of 256");
    expect(misfits(taps, 6, UINT64_MAX, 6, 6, 6, MODSCHED_MISFIT_CEILING), "the greatest ceiling");
    expect(solve(TAPS, taps, 1, 0, 6, 6, 6, &answer) == MODSCHED_SOLVED, "the least settings");
    expect(solve(TAPS, taps, 64, 255, 6, 6, 6, &answer) == MODSCHED_SOLVED, "the greatest settings");
    /* The first of several, and before the problem. */
    faulty.units = 0;
    expect(misfits(&faulty, 0, 256, 5, 5, 5, MODSCHED_MISFIT_RATIO), "all arguments, the ratio");
    expect(misfits(&faulty, 1, 256, 5, 5, 5, MODSCHED_MISFIT_CEILING), "all but the ratio, the ceiling");
    expect(misfits(&faulty, 1, 255, 5, 5, 5, MODSCHED_MISFIT_TIMES), "all arrays, the times");
    expect(misfits(&faulty, 1, 255, 6, 5, 5, MODSCHED_MISFIT_ALTERNATIVES), "two arrays, the alternatives");
    expect(misfits(&faulty, 1, 255, 6, 6, 5, MODSCHED_MISFIT_NUMBERS), "one array, the numbers");
}

static void lengths(void) {
    const struct modsched_problem *taps = &TAPS->problem;
    struct modsched_answer answer;
    size_t i;
    expect(misfits(taps, 6, 20, 5, 6, 6, MODSCHED_MISFIT_TIMES), "times that are one short");
    expect(misfits(taps, 6, 20, 6, 5, 6, MODSCHED_MISFIT_ALTERNATIVES), "alternatives that are one short");
    expect(misfits(taps, 6, 20, 6, 6, 5, MODSCHED_MISFIT_NUMBERS), "numbers that are one short");
    expect(misfits(taps, 6, 20, 0, 6, 6, MODSCHED_MISFIT_TIMES), "no times");
    expect(misfits(taps, 6, 20, 6, 0, 6, MODSCHED_MISFIT_ALTERNATIVES), "no alternatives");
    expect(misfits(taps, 6, 20, 6, 6, 0, MODSCHED_MISFIT_NUMBERS), "no numbers");
    expect(solve(TAPS, taps, 6, 20, 7, 9, 300, &answer) == MODSCHED_SOLVED, "longer arrays");
    for (i = 0; i < WORKED_COUNT; i++) {
        const struct worked *it = &WORKED[i];
        size_t operations = it->problem.operations_count;
        uint32_t wanted = it->cause ? MODSCHED_NO_INTERVAL : MODSCHED_SOLVED;
        expect_of(solve(it, &it->problem, it->ratio, it->ceiling, operations, operations, it->problem.values_count, &answer) == wanted, it->name,
                  "arrays that are just long enough");
    }
}

/* A schedule in blocks of just these lengths. */
static uint32_t check(const struct worked *it, const struct modsched_problem *problem, size_t times_count, size_t alternatives_count, size_t numbers_count,
                      struct modsched_verdict *verdict) {
    uint64_t *times = block(it->times, times_count), *alternatives = block(it->alternatives, alternatives_count);
    uint64_t *numbers = block(it->numbers, numbers_count);
    uint32_t status;
    memset(verdict, 99, sizeof *verdict);
    status = modsched_check(problem, it->interval, times, times_count, alternatives, alternatives_count, numbers, numbers_count, verdict);
    free(times), free(alternatives), free(numbers);
    return status;
}

static void checks(void) {
    struct modsched_problem faulty = TAPS->problem;
    struct modsched_verdict verdict, wanted = no_verdict();
    size_t i;
    faulty.units = 0, wanted.misfit = 1;
    expect(check(TAPS, &TAPS->problem, 6, 5, 6, &verdict) == MODSCHED_CHECK_MISFIT && same_verdict(&verdict, &wanted), "more times than alternatives");
    expect(check(TAPS, &TAPS->problem, 0, 6, 6, &verdict) == MODSCHED_CHECK_MISFIT && same_verdict(&verdict, &wanted), "no times, but alternatives");
    expect(check(TAPS, &faulty, 5, 6, 0, &verdict) == MODSCHED_CHECK_MISFIT && same_verdict(&verdict, &wanted), "this is tested before the problem");
    wanted = no_verdict(), wanted.kind = MODSCHED_BREAK_TIME_COUNT;
    expect(check(TAPS, &TAPS->problem, 0, 0, 6, &verdict) == MODSCHED_BROKEN && same_verdict(&verdict, &wanted), "no times and no alternatives");
    wanted.kind = MODSCHED_BREAK_NUMBER_COUNT;
    expect(check(TAPS, &TAPS->problem, 6, 6, 0, &verdict) == MODSCHED_BROKEN && same_verdict(&verdict, &wanted), "no numbers");
    for (i = 0; i < WORKED_COUNT; i++) {
        const struct worked *it = &WORKED[i];
        if (it->cause) continue;
        wanted = no_verdict(), wanted.stages = it->stages;
        expect_of(check(it, &it->problem, it->problem.operations_count, it->problem.operations_count, it->problem.values_count, &verdict)
                      == MODSCHED_LAWFUL && same_verdict(&verdict, &wanted), it->name, "a schedule in blocks");
    }
}

int main(void) {
    settings();
    lengths();
    checks();
    return finish();
}
