/* Each verdict of a check. The schedules are those of the worked problems with one thing changed, or with several, of which the first in the
 * order of the breaks is told. */
#include "worked.h"

#include <string.h>

static struct modsched_verdict told;

/* The status of a schedule; its verdict is left in `told`. */
static uint32_t judge(const struct modsched_problem *problem, uint64_t interval, const uint64_t *times, size_t count, const uint64_t *alternatives,
                      const uint64_t *numbers, size_t numbers_count) {
    memset(&told, 99, sizeof told);
    return modsched_check(problem, interval, times, count, alternatives, count, numbers, numbers_count, &told);
}

/* The schedule of a worked problem, to be changed. */
static struct worked it;
static void take(const struct worked *worked) { it = *worked; }
static uint32_t judge_it(void) {
    return judge(&it.problem, it.interval, it.times, it.problem.operations_count, it.alternatives, it.numbers, it.problem.values_count);
}

static int is_lawful(uint64_t stages) {
    struct modsched_verdict wanted = no_verdict();
    uint32_t status = judge_it();
    wanted.stages = stages;
    return status == MODSCHED_LAWFUL && same_verdict(&told, &wanted);
}

static int breaks(const struct modsched_verdict *wanted) { return judge_it() == MODSCHED_BROKEN && same_verdict(&told, wanted); }

static int breaks_only(uint64_t kind) {
    struct modsched_verdict wanted = no_verdict();
    wanted.kind = kind;
    return breaks(&wanted);
}

static int breaks_at_operation(uint64_t kind, uint64_t operation) {
    struct modsched_verdict wanted = no_verdict();
    wanted.kind = kind, wanted.operation = operation;
    return breaks(&wanted);
}

static int breaks_at_value(uint64_t value) {
    struct modsched_verdict wanted = no_verdict();
    wanted.kind = MODSCHED_BREAK_NUMBER, wanted.value = value;
    return breaks(&wanted);
}

static int breaks_slot(uint64_t earlier, uint64_t operation, uint64_t unit, uint64_t residue) {
    struct modsched_verdict wanted = no_verdict();
    wanted.kind = MODSCHED_BREAK_SLOT;
    wanted.earlier = earlier, wanted.operation = operation, wanted.unit = unit, wanted.residue = residue;
    return breaks(&wanted);
}

static int breaks_edge(uint64_t from, uint64_t to, uint64_t distance, int64_t delay, uint64_t early) {
    struct modsched_verdict wanted = no_verdict();
    wanted.kind = MODSCHED_BREAK_EDGE;
    wanted.from = from, wanted.to = to, wanted.distance = distance, wanted.delay = delay, wanted.early = early;
    return breaks(&wanted);
}

static int breaks_register(uint64_t file, uint64_t other, uint64_t value, uint64_t register_number, uint64_t cycle) {
    struct modsched_verdict wanted = no_verdict();
    wanted.kind = MODSCHED_BREAK_REGISTER;
    wanted.file = file, wanted.other = other, wanted.value = value, wanted.register_number = register_number, wanted.cycle = cycle;
    return breaks(&wanted);
}

/* The worked problem of a name. */
static const struct worked *named(const char *name) {
    size_t i;
    for (i = 0; i < WORKED_COUNT; i++)
        if (strcmp(WORKED[i].name, name) == 0) return &WORKED[i];
    expect(0, name);
    return TAPS;
}

/* The interval is looked at before all else: at 0 no time has a stage, and 16,384 is the longest. */
static void intervals(void) {
    take(TAPS), it.interval = 0, it.numbers[0] = 16, it.times[0] = 1048576;
    expect(breaks_only(MODSCHED_BREAK_INTERVAL), "an interval of 0");
    it.interval = 16385;
    expect(breaks_only(MODSCHED_BREAK_INTERVAL), "an interval of 16,385");
    take(TAPS), it.interval = 16384;
    /* (iterations do not overlap then, but for the second sum, which the next iteration reads in its cycle 4) */
    expect(is_lawful(1), "an interval of 16,384");
}

/* There are six values, and the registers are 0 to 15. Of two numbers that are too great the first is told, before places are looked at. */
static void numbers(void) {
    struct modsched_verdict wanted = no_verdict();
    wanted.kind = MODSCHED_BREAK_NUMBER_COUNT;
    take(TAPS), it.times[0] = 1048576;
    expect(judge(&it.problem, 2, it.times, 5, it.alternatives, it.numbers, 5) == MODSCHED_BROKEN && same_verdict(&told, &wanted), "five numbers");
    expect(judge(&it.problem, 2, it.times, 5, it.alternatives, it.numbers, 7) == MODSCHED_BROKEN && same_verdict(&told, &wanted), "seven numbers");
    it.numbers[1] = it.numbers[5] = 16;
    expect(breaks_at_value(1), "two numbers of 16");
    it.numbers[1] = UINT64_MAX;
    expect(breaks_at_value(1), "the greatest number");
    take(named("an unallotted sum")), it.numbers[1] = 1;
    expect(breaks_at_value(1), "a number of a value that is allotted to no register");
}

/* There are six operations, loads have the alternatives 0 and 1, and no time is above 64 stages of 16,384 cycles. */
static void ranges(void) {
    struct modsched_verdict wanted = no_verdict();
    wanted.kind = MODSCHED_BREAK_TIME_COUNT;
    take(TAPS), it.times[0] = 1048576;
    expect(judge(&it.problem, 2, it.times, 5, it.alternatives, it.numbers, 6) == MODSCHED_BROKEN && same_verdict(&told, &wanted), "five times");
    expect(judge(&it.problem, 2, it.times, 7, it.alternatives, it.numbers, 6) == MODSCHED_BROKEN && same_verdict(&told, &wanted), "seven times");
    take(TAPS), it.times[1] = 1048576, it.alternatives[1] = 2, it.alternatives[2] = 2;
    expect(breaks_at_operation(MODSCHED_BREAK_TIME, 1), "a great time");
    it.times[1] = UINT64_MAX;
    expect(breaks_at_operation(MODSCHED_BREAK_TIME, 1), "the greatest time");
    it.times[1] = 0, it.times[2] = 1048576;
    expect(breaks_at_operation(MODSCHED_BREAK_ALTERNATIVE, 1), "an alternative that is not there, before a great time");
    it.alternatives[1] = UINT64_MAX;
    expect(breaks_at_operation(MODSCHED_BREAK_ALTERNATIVE, 1), "the greatest alternative");
    /* The last cycle of the last of 64 stages. */
    take(named("one way")), it.interval = 16384, it.times[0] = 1048575;
    expect(is_lawful(64), "the greatest time that is right");
}

/* Both loads of the first tap on the first port in cycle 0, or the one two cycles later. An operation that collides with itself. */
static void slots(void) {
    take(TAPS), it.alternatives[1] = 0, it.times[4] = 2;
    expect(breaks_slot(0, 1, 0, 0), "two loads on one port, and a tap that comes too early");
    it.times[1] = 2;
    expect(breaks_slot(0, 1, 0, 0), "two loads on one port, one interval apart");
    take(TAPS), it.times[5] = 5;
    expect(breaks_slot(4, 5, 2, 1), "two taps on the multiplier");
    take(named("one way")), it.interval = 2, it.times[0] = 1;
    expect(breaks_slot(0, 0, 0, 1), "an operation that takes its own slot again");
}

/* The first tap in 2, one cycle before its loads land in 3, and the second in 5, so that the multiplier is free. The sum that the first tap
 * goes on with is too late for it as well, but edges come by their first operation. */
static void edges(void) {
    take(TAPS), it.times[4] = 2, it.times[5] = 5;
    expect(breaks_edge(0, 4, 0, 3, 1), "a tap that comes one cycle early");
    /* The sum has to land in 6, when the product two iterations later reads it. */
    take(named("a recurrence")), it.times[1] = 5;
    expect(is_lawful(2), "a sum as late as may be");
    it.times[1] = 7;
    expect(breaks_edge(1, 0, 2, 1, 2), "a sum two cycles later");
    take(named("orders")), it.times[0] = 5;
    expect(breaks_edge(0, 1, 0, -3, 2), "a load five cycles after the store");
}

/* All is issued 126 cycles later: the loads are in stage 63, the taps in the stages 64 and 65. */
static void stages(void) {
    size_t i;
    take(TAPS);
    for (i = 0; i < 6; i++) it.times[i] += 126;
    it.numbers[5] = 2;
    expect(breaks_at_operation(MODSCHED_BREAK_STAGE, 4), "a tap in stage 64");
    take(named("far apart")), it.interval = 1, it.times[1] = 64;
    expect(breaks_at_operation(MODSCHED_BREAK_STAGE, 1), "an operation in stage 64");
    it.times[0] = 64;
    expect(breaks_edge(0, 1, 0, 64, 64), "an edge before that");
}

/* The sums in a file of their own. In it the second sum, from 2 to 6, stands in 2, and the first one, from 5 to 5, in 1: so that of the iteration before
 * stands in 2 in cycle 3. */
static void second_file(void) {
    static const uint32_t files[] = {16, 16};
    static struct modsched_value values[6];
    size_t i;
    take(TAPS);
    for (i = 0; i < 6; i++) values[i] = it.problem.values[i], values[i].file = i < 4 ? 0 : 1;
    it.problem.files = files, it.problem.files_count = 2, it.problem.values = values;
    it.numbers[5] = 3;
    expect(is_lawful(3), "two files");
    it.numbers[5] = 2;
    expect(breaks_register(1, 4, 5, 2, 3), "two values in one register of the second file");
}

/* The second sum, from 2 to 6, in 2: the second load of the second tap stands in 1 and lives in 4, that of the iteration before in 2, in cycle
 * 2. The first sum meets the second one too, but its number comes later; the loads before it stand in 2 in other cycles. */
static void registers(void) {
    take(TAPS), it.numbers[5] = 2;
    expect(breaks_register(0, 3, 5, 2, 2), "two values in one register");
    it.numbers[5] = 7;
    expect(is_lawful(3), "a number that is not the least");
    /* A sum in the register of what is loaded, from 1 to 5: in 5 that of three iterations later stands in -3, in 3. */
    take(named("a late operand")), it.numbers[1] = 3;
    expect(breaks_register(0, 0, 1, 3, 5), "two values in one register of six");
    /* A value from 2 to 8 in one of three registers: that of three iterations before lives to 2, and that of three later from 8 on. */
    take(named("initial values, few registers")), it.numbers[0] = 1;
    expect(breaks_register(0, 0, 0, 1, 2) || breaks_register(0, 0, 0, 1, 8), "two instances of one value in one register");
    second_file();
    /* In the file that is not allotted two instances of the sum live at once, and that breaks nothing. */
    take(named("an unallotted sum"));
    expect(is_lawful(2), "two instances of one value in no register");
}

int main(void) {
    take(TAPS);
    expect(is_lawful(3), "a lawful schedule");
    intervals();
    numbers();
    ranges();
    slots();
    edges();
    stages();
    registers();
    return finish();
}
