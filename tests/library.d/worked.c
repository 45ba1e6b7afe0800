/* The worked problems.
 *
 * Each is worked out by hand from the definitions, which docs/SEMANTICS.md tells ("Problems without a loop", "Iterative modulo
 * scheduling"): the bounds; the operations by falling height, each at the first free slot from the earliest time that those placed
 * before it allow; the lifetimes; and the least number of each value. An instance i of a value with the number n stands in the
 * register n - i, modulo the registers of its file. */
#include "worked.h"

#include <stdio.h>
#include <string.h>

#define COUNT(items) (sizeof(items) / sizeof(items)[0])
#define ITEMS(items) items, COUNT(items)

/* What stands where a list has no items: no pointer may be null. */
static const uint32_t NO_NUMBER = 0;
static const struct modsched_value NO_VALUE = {0, 0, 0, 0};
static const struct modsched_read NO_READ = {0, 0, 0, 0};
static const struct modsched_order NO_ORDER = {0, 0, 0, 0};
#define NO_VALUES &NO_VALUE, 0
#define NO_READS &NO_READ, 0
#define NO_ORDERS &NO_ORDER, 0
#define NO_FILES &NO_NUMBER, 0

/* A unit in the cycle of the issue, for each of the first three units. */
static const struct modsched_hold FIRST[] = {{0, 0}}, SECOND[] = {{1, 0}}, THIRD[] = {{2, 0}};
static const struct modsched_alternative ON_FIRST[] = {{ITEMS(FIRST)}}, ON_SECOND[] = {{ITEMS(SECOND)}}, ON_THIRD[] = {{ITEMS(THIRD)}};
static const struct modsched_alternative ON_EITHER[] = {{ITEMS(FIRST)}, {ITEMS(SECOND)}};

/* Rotating files, and one whose values are allotted to no registers. */
static const uint32_t ONE[] = {1}, TWO[] = {2}, THREE[] = {3}, FOUR[] = {4}, FIVE[] = {5}, SIX[] = {6}, EIGHT[] = {8}, NINE[] = {9}, SIXTEEN[] = {16};
static const uint32_t ONE_AND_NONE[] = {1, 0};

/* Operations: one, two or three of a kind, or each of a kind of its own. */
static const uint32_t ALIKE[] = {0, 0, 0}, APART[] = {0, 1}, ALL_APART[] = {0, 1, 2};

/* Two taps of a filter: four loads (3 cycles, on two ports) and two multiply-accumulates (2 cycles, on one multiplier), which read their
 * accumulator one cycle after their issue.
 *
 * Four loads on two ports take 2 cycles, and so do two taps on one multiplier. From the first tap to the second 2 - 1 cycles, back to the
 * first one of the next iteration 2 - 1: 2. Heights at 2: 6 and 6 for the loads of the first tap, 5 and 5, then 3 and 2. The loads take
 * both ports in the cycles 0 and 1; the first tap waits for 0 + 3, the second for 1 + 3 and for 3 + 2 - 1.
 *
 * What is loaded is read as it lands, in 3 and 4; the first sum lands in 5, and is read in 4 + 1. The second lands in 6; since it is
 * carried on it lives from 2, and to 3 + 1 + 2, which is also the end of the last stage. The pairs that land together take 0 and 1. In
 * cycle 5 the next two of the first pair stand in -1 and 0, so the first sum takes 1. The second sum meets the first pair in 0, 1, -1,
 * the second pair in 2, 1, 0, -1 and the first sum in 2 and 1: 3 is left.
 *
 * With 4 registers nothing is left for the second sum at 2: -1 is 3. */
static const struct modsched_kind TAP_KINDS[] = {{3, ITEMS(ON_EITHER)}, {2, ITEMS(ON_THIRD)}};
static const uint32_t TAP_OPERATIONS[] = {0, 0, 0, 0, 1, 1};
static const struct modsched_value TAP_VALUES[] = {{0, 3, 0, 0}, {1, 3, 0, 0}, {2, 3, 0, 0}, {3, 3, 0, 0}, {4, 2, 0, 0}, {5, 2, 1, 0}};
static const struct modsched_read TAP_READS[] = {{0, 4, 0, 0}, {1, 4, 0, 0}, {5, 4, 1, 1}, {2, 5, 0, 0}, {3, 5, 0, 0}, {4, 5, 0, 1}};
#define TAP_LISTS ITEMS(TAP_KINDS), ITEMS(TAP_OPERATIONS), ITEMS(TAP_VALUES), ITEMS(TAP_READS), NO_ORDERS

/* A chain of three operations of 3 cycles on one unit.
 *
 * The unit needs 3, and no recurrence more than 1. They are issued in 0, in 4 (in 3 the unit is taken, as in 0), and in 8 (in 7 it
 * is taken, as in 4). The first value lives from 3 to 4 and the second from 7 to 8. In 7 the second meets the first one of the next
 * iteration, which stands in -1: with two registers 0 is free for it, and with one nothing is.
 *
 * At 4 the unit is free in 3 and in 6, each value lives in one cycle, 3 or 6, and one register does. */
static const struct modsched_kind CHAIN_KINDS[] = {{3, ITEMS(ON_FIRST)}};
static const struct modsched_value CHAIN_VALUES[] = {{0, 3, 0, 0}, {1, 3, 0, 0}};
static const struct modsched_read CHAIN_READS[] = {{0, 1, 0, 0}, {1, 2, 0, 0}};
#define CHAIN_LISTS ITEMS(CHAIN_KINDS), ITEMS(ALIKE), ITEMS(CHAIN_VALUES), ITEMS(CHAIN_READS), NO_ORDERS

/* Three operations of 1 cycle that nothing holds back, each on either of two units, without values or register files.
 *
 * Counted one after another they take the first unit, the second and the first: 2. In cycle 0 both units are taken by the first two; the
 * third one is issued in 1, on the first unit. */
static const struct modsched_kind EITHER_KINDS[] = {{1, ITEMS(ON_EITHER)}};

/* One operation that holds a unit in two cycles, 2 apart, or two units in one cycle each, 1 apart.
 *
 * Either way no unit is held more than twice, and the first way is counted: 2. At 2 that collides with itself, and the second way is
 * taken. Without it nothing is left at 2, and 3 is the least interval. */
static const struct modsched_hold TWICE[] = {{0, 0}, {0, 2}}, TWO_IN_A_ROW[] = {{1, 0}, {1, 1}};
static const struct modsched_alternative TWICE_OR_IN_A_ROW[] = {{ITEMS(TWICE)}, {ITEMS(TWO_IN_A_ROW)}};
static const struct modsched_kind EITHER_WAY_KINDS[] = {{1, ITEMS(TWICE_OR_IN_A_ROW)}}, TWICE_KINDS[] = {{1, TWICE_OR_IN_A_ROW, 1}};

/* A recurrence over two iterations: a product (4 cycles) of the sum of two iterations ago, and a sum (1 cycle) of it.
 *
 * The circuit takes 4 + 1 cycles over 2 iterations: 3. The product is issued in 0 and the sum in 4. The product lives in 4; the sum lands in
 * 5, but since it is carried on it lives from 3, and to 0 + 6, when it is read two iterations later. The product takes 0. The sum meets it
 * in 4, where it stands in 0, and meets the next sum in 6: it takes 1 of two registers. With one register there is none for it. */
static const struct modsched_kind TWO_KINDS[] = {{4, ITEMS(ON_FIRST)}, {1, ITEMS(ON_SECOND)}};
static const struct modsched_value SUM_VALUES[] = {{0, 4, 0, 0}, {1, 1, 0, 0}};
static const struct modsched_value SUM_UNALLOTTED[] = {{0, 4, 0, 0}, {1, 1, 0, 1}};
static const struct modsched_read SUM_READS[] = {{1, 0, 2, 0}, {0, 1, 0, 0}};

/* A load (2 cycles) and a multiply-accumulate (3 cycles) that reads its own sum of the iteration before 2 cycles after its issue.
 *
 * From the sum to itself it takes 3 - 2 cycles, so an interval of 1 will do; if it were read at the issue it would be 3. The load is issued in
 * 0 and the sum in 2, in the third stage. What is loaded lives in 2; the sum lands in 5 and is carried on, so it lives from 1, and to
 * 2 + 2 + 1. It is live at the end too, which is in 5, when it has landed. What is loaded takes 0. From 1 to 5 the sum meets those that are loaded
 * in 1 to 5, in the registers 1, 0, -1, -2 and -3: of six registers 2 is left, of five none.
 *
 * Read at the issue, at 3: the sum lives from 3 to 2 + 3, and meets one that is loaded in 5, in -1, so 0 is free of five. */
static const struct modsched_kind LATE_KINDS[] = {{2, ITEMS(ON_FIRST)}, {3, ITEMS(ON_SECOND)}};
static const struct modsched_value LATE_VALUES[] = {{0, 2, 0, 0}, {1, 3, 1, 0}};
static const struct modsched_read LATE_READS[] = {{0, 1, 0, 0}, {1, 1, 1, 2}};
static const struct modsched_read PLAIN_READS[] = {{0, 1, 0, 0}, {1, 1, 1, 0}};

/* One operation (5 cycles) that reads what it made four iterations ago.
 *
 * 5 cycles over 4 iterations: 2. It is issued in 0. Its value lands in 5, but the four instances of the iterations before the first are initial
 * values, which have to be there from the first cycle on: so it lives from 2, and to 0 + 8. Three iterations later it lives from 8 on, four
 * iterations later from 10 on. Four registers are enough, and of three it meets itself in one. (From 5 to 8 two would be enough.) */
static const struct modsched_kind FIVE_CYCLES[] = {{5, ITEMS(ON_FIRST)}};
static const uint32_t ALONE[] = {0};
static const struct modsched_value OWN_VALUE[] = {{0, 5, 0, 0}};
static const struct modsched_read OWN_READ[] = {{0, 0, 4, 0}};

/* A load and a store on one unit, of 1 and 4 cycles. The load reads a cell that the store of the iteration before wrote, so it comes 4
 * cycles after that one; the store of its own iteration must not land before it, so that one comes at most 3 cycles before it.
 *
 * The unit needs 2, and so does the circuit for -3 + 4 = 1 at the most. Heights at 2: 1 for the load, 4 for the store. The store is
 * issued in 0; the load waits for 0 + 4 - 2, where the unit is taken, and is issued in 3. */
static const struct modsched_kind MEMORY_KINDS[] = {{1, ITEMS(ON_FIRST)}, {4, ITEMS(ON_FIRST)}};
static const struct modsched_order MEMORY_ORDERS[] = {{0, 1, -3, 0}, {1, 0, 4, 1}};

/* Two adds (2 cycles), of which the second reads the first, and a multiply that holds the unit for two cycles: docs/SEMANTICS.md has it as
 * the loop `force`.
 *
 * The unit needs 4. At 4, x is placed in 0 and y in 2; no two neighbouring cycles are left for m, which is placed in 0 by force, so that x
 * goes; x is placed in 3, y goes, and is placed in 6. These are five placements, so with one for each operation the budget is used up.
 * At 5, with x in 0 and y in 2, 3 and 4 are left for m. */
static const struct modsched_hold BUSY[] = {{0, 0}, {0, 1}};
static const struct modsched_alternative ON_BUSY[] = {{ITEMS(BUSY)}};
static const struct modsched_kind FORCE_KINDS[] = {{2, ITEMS(ON_FIRST)}, {1, ITEMS(ON_BUSY)}};
static const uint32_t FORCE_OPERATIONS[] = {0, 0, 1};
static const struct modsched_value FORCE_VALUES[] = {{0, 2, 0, 0}};
static const struct modsched_read FORCE_READS[] = {{0, 1, 0, 0}};
#define FORCE_LISTS ITEMS(FORCE_KINDS), ITEMS(FORCE_OPERATIONS), ITEMS(FORCE_VALUES), ITEMS(FORCE_READS), NO_ORDERS

/* Three operations on one unit, which x holds in the cycle of its issue, y two cycles later, and m in the first two cycles.
 *
 * The unit needs 4. At 4, x and y are placed in 0, and take the cycles 0 and 2. No two neighbouring ones are left for m, which is placed in 0 by
 * force, so that x goes; for x 3 is left. These are four placements, one more than there are operations. */
static const struct modsched_hold LATER[] = {{0, 2}};
static const struct modsched_alternative ON_LATER[] = {{ITEMS(LATER)}};
static const struct modsched_kind ROOMLESS_KINDS[] = {{2, ITEMS(ON_FIRST)}, {2, ITEMS(ON_LATER)}, {1, ITEMS(ON_BUSY)}};
#define ROOMLESS_LISTS ITEMS(ROOMLESS_KINDS), ITEMS(ALL_APART), NO_VALUES, NO_READS, NO_ORDERS

/* An operation a that holds the unit once, and b and c (3 cycles), which hold it in two cycles, 2 apart.
 *
 * The unit needs 5. At 5, c is placed first, in 0, and takes the cycles 0 and 2; a takes 1. For b none of the pairs 0 and 2, 1 and 3, 2 and 4, 3 and 0,
 * 4 and 1 is left: it is placed in 0 by force, and c goes. Nor is a pair left for c now. It was in 0 before, so it is placed in 1 by force, and a
 * goes, for which 4 is left. */
static const struct modsched_alternative ON_TWICE[] = {{ITEMS(TWICE)}};
static const struct modsched_kind PUSHED_KINDS[] = {{1, ITEMS(ON_FIRST)}, {1, ITEMS(ON_TWICE)}, {3, ITEMS(ON_TWICE)}};

/* A value (1 cycle) that is live at the end and that nothing reads, and an operation of 4 cycles that is issued 5 cycles after its maker.
 *
 * At 1 they are issued in 0 and in 5, in the sixth stage, which ends in 6. The second operation lands in 9, and up to then the value has to last: it
 * lives from 1 to 9, so nine of its instances live at once. */
static const struct modsched_kind LASTING_KINDS[] = {{1, ITEMS(ON_FIRST)}, {4, ITEMS(ON_SECOND)}};
static const struct modsched_value LASTING_VALUES[] = {{0, 1, 1, 0}};
static const struct modsched_order LASTING_ORDERS[] = {{0, 1, 5, 0}};
#define LASTING_LISTS ITEMS(LASTING_KINDS), ITEMS(APART), ITEMS(LASTING_VALUES), NO_READS, ITEMS(LASTING_ORDERS)

/* Two operations on units of their own, the second 64 cycles after the first.
 *
 * At 1 the second is in stage 64, which is one too many; at 2 it is in stage 32. */
static const struct modsched_kind FAR_KINDS[] = {{1, ITEMS(ON_FIRST)}, {1, ITEMS(ON_SECOND)}};
static const struct modsched_order FAR_ORDERS[] = {{0, 1, 64, 0}};
#define FAR_LISTS ITEMS(FAR_KINDS), ITEMS(APART), NO_VALUES, NO_READS, ITEMS(FAR_ORDERS)

/* Where there is no schedule the arrays are not looked at. */
#define NOTHING {0}, {0}, {0}

const struct worked WORKED[] = {
    {"two taps", {3, ITEMS(SIXTEEN), TAP_LISTS}, 6, 20, 2, 2, 2, 3, {0, 0, 1, 1, 3, 4}, {0, 1, 0, 1, 0, 0}, {0, 1, 0, 1, 1, 3}, 0, 0, 0},
    {"two taps, few registers", {3, ITEMS(FOUR), TAP_LISTS}, 6, 0, 2, 2, 2, 0, NOTHING, MODSCHED_CAUSE_REGISTERS, 0, 5},
    {"a chain", {1, ITEMS(TWO), CHAIN_LISTS}, 6, 20, 3, 1, 3, 3, {0, 4, 8}, {0, 0, 0}, {0, 0}, 0, 0, 0},
    {"a chain, one register", {1, ITEMS(ONE), CHAIN_LISTS}, 6, 1, 3, 1, 4, 2, {0, 3, 6}, {0, 0, 0}, {0, 0}, 0, 0, 0},
    {"a chain, one register at 3", {1, ITEMS(ONE), CHAIN_LISTS}, 6, 0, 3, 1, 3, 0, NOTHING, MODSCHED_CAUSE_REGISTERS, 0, 1},
    {"either unit", {2, NO_FILES, ITEMS(EITHER_KINDS), ITEMS(ALIKE), NO_VALUES, NO_READS, NO_ORDERS}, 1, 0, 2, 1, 2, 1, {0, 0, 1}, {0, 1, 0}, {0}, 0, 0, 0},
    {"either way", {2, NO_FILES, ITEMS(EITHER_WAY_KINDS), ITEMS(ALONE), NO_VALUES, NO_READS, NO_ORDERS}, 6, 20, 2, 1, 2, 1, {0}, {1}, {0}, 0, 0, 0},
    {"one way", {2, NO_FILES, ITEMS(TWICE_KINDS), ITEMS(ALONE), NO_VALUES, NO_READS, NO_ORDERS}, 6, 20, 2, 1, 3, 1, {0}, {0}, {0}, 0, 0, 0},
    {"one way, at 2", {2, NO_FILES, ITEMS(TWICE_KINDS), ITEMS(ALONE), NO_VALUES, NO_READS, NO_ORDERS}, 6, 0, 2, 1, 2, 0, NOTHING, MODSCHED_CAUSE_TABLE, 0, 0},
    {"a recurrence", {2, ITEMS(TWO), ITEMS(TWO_KINDS), ITEMS(APART), ITEMS(SUM_VALUES), ITEMS(SUM_READS), NO_ORDERS}, 6, 20, 1, 3, 3, 2, {0, 4}, {0, 0}, {0, 1}, 0, 0, 0},
    {"a recurrence, one register", {2, ITEMS(ONE), ITEMS(TWO_KINDS), ITEMS(APART), ITEMS(SUM_VALUES), ITEMS(SUM_READS), NO_ORDERS}, 6, 0, 1, 3, 3, 0, NOTHING, MODSCHED_CAUSE_REGISTERS, 0, 1},
    {"an unallotted sum", {2, ITEMS(ONE_AND_NONE), ITEMS(TWO_KINDS), ITEMS(APART), ITEMS(SUM_UNALLOTTED), ITEMS(SUM_READS), NO_ORDERS}, 6, 0, 1, 3, 3, 2, {0, 4}, {0, 0}, {0, 0}, 0, 0, 0},
    {"a late operand", {2, ITEMS(SIX), ITEMS(LATE_KINDS), ITEMS(APART), ITEMS(LATE_VALUES), ITEMS(LATE_READS), NO_ORDERS}, 6, 20, 1, 1, 1, 3, {0, 2}, {0, 0}, {0, 2}, 0, 0, 0},
    {"a late operand, few registers", {2, ITEMS(FIVE), ITEMS(LATE_KINDS), ITEMS(APART), ITEMS(LATE_VALUES), ITEMS(LATE_READS), NO_ORDERS}, 6, 0, 1, 1, 1, 0, NOTHING, MODSCHED_CAUSE_REGISTERS, 0, 1},
    {"the same operand at the issue", {2, ITEMS(FIVE), ITEMS(LATE_KINDS), ITEMS(APART), ITEMS(LATE_VALUES), ITEMS(PLAIN_READS), NO_ORDERS}, 6, 20, 1, 3, 3, 1, {0, 2}, {0, 0}, {0, 0}, 0, 0, 0},
    {"initial values", {1, ITEMS(FOUR), ITEMS(FIVE_CYCLES), ITEMS(ALONE), ITEMS(OWN_VALUE), ITEMS(OWN_READ), NO_ORDERS}, 6, 20, 1, 2, 2, 1, {0}, {0}, {0}, 0, 0, 0},
    {"initial values, few registers", {1, ITEMS(THREE), ITEMS(FIVE_CYCLES), ITEMS(ALONE), ITEMS(OWN_VALUE), ITEMS(OWN_READ), NO_ORDERS}, 6, 0, 1, 2, 2, 0, NOTHING, MODSCHED_CAUSE_REGISTERS, 0, 0},
    {"orders", {1, NO_FILES, ITEMS(MEMORY_KINDS), ITEMS(APART), NO_VALUES, NO_READS, ITEMS(MEMORY_ORDERS)}, 6, 20, 2, 1, 2, 2, {3, 0}, {0, 0}, {0}, 0, 0, 0},
    {"force", {1, ITEMS(TWO), FORCE_LISTS}, 2, 0, 4, 1, 4, 2, {3, 6, 0}, {0, 0, 0}, {0}, 0, 0, 0},
    {"force, three placements", {1, ITEMS(TWO), FORCE_LISTS}, 1, 0, 4, 1, 4, 0, NOTHING, MODSCHED_CAUSE_BUDGET, 0, 0},
    {"force, three placements at 5", {1, ITEMS(TWO), FORCE_LISTS}, 1, 1, 4, 1, 5, 1, {0, 2, 3}, {0, 0, 0}, {0}, 0, 0, 0},
    {"no room", {1, NO_FILES, ROOMLESS_LISTS}, 2, 0, 4, 1, 4, 1, {3, 0, 0}, {0, 0, 0}, {0}, 0, 0, 0},
    {"no room, three placements", {1, NO_FILES, ROOMLESS_LISTS}, 1, 0, 4, 1, 4, 0, NOTHING, MODSCHED_CAUSE_BUDGET, 0, 0},
    {"pushed on", {1, NO_FILES, ITEMS(PUSHED_KINDS), ITEMS(ALL_APART), NO_VALUES, NO_READS, NO_ORDERS}, 2, 0, 5, 1, 5, 1, {4, 0, 1}, {0, 0, 0}, {0}, 0, 0, 0},
    {"live at the end", {2, ITEMS(NINE), LASTING_LISTS}, 6, 0, 1, 1, 1, 6, {0, 5}, {0, 0}, {0}, 0, 0, 0},
    {"live at the end, few registers", {2, ITEMS(EIGHT), LASTING_LISTS}, 6, 0, 1, 1, 1, 0, NOTHING, MODSCHED_CAUSE_REGISTERS, 0, 0},
    {"far apart, at 1", {2, NO_FILES, FAR_LISTS}, 6, 0, 1, 1, 1, 0, NOTHING, MODSCHED_CAUSE_STAGES, 0, 0},
    {"far apart", {2, NO_FILES, FAR_LISTS}, 6, 1, 1, 1, 2, 33, {0, 64}, {0, 0}, {0}, 0, 0, 0},
};
const size_t WORKED_COUNT = COUNT(WORKED);
const struct worked *const TAPS = &WORKED[0];

static int wrong = 0;

void expect_of(int is_well, const char *of, const char *what) {
    if (!is_well) {
        printf("wrong: %s%s%s\n", of, *of ? ": " : "", what);
        wrong = 1;
    }
}

void expect(int is_well, const char *what) { expect_of(is_well, "", what); }

int finish(void) { return wrong; }

/* No number of the worked problems, but for counts that are too great anyway. */
static const uint64_t MARK = 987654321;

void mark(struct arrays *arrays) {
    size_t i;
    for (i = 0; i < ROOM; i++) arrays->times[i] = arrays->alternatives[i] = arrays->numbers[i] = MARK;
}

int are_marked(const uint64_t *items, size_t from) {
    for (; from < ROOM; from++)
        if (items[from] != MARK) return 0;
    return 1;
}

int is_marked(const struct arrays *arrays) {
    return are_marked(arrays->times, 0) && are_marked(arrays->alternatives, 0) && are_marked(arrays->numbers, 0);
}

struct modsched_answer no_answer(void) {
    struct modsched_answer answer;
    memset(&answer, 0, sizeof answer);
    return answer;
}

struct modsched_verdict no_verdict(void) {
    struct modsched_verdict verdict;
    memset(&verdict, 0, sizeof verdict);
    return verdict;
}

/* (The structs are numbers of 64 bits and nothing else: layout.c) */
int same_answer(const struct modsched_answer *one, const struct modsched_answer *other) { return memcmp(one, other, sizeof *one) == 0; }

int same_verdict(const struct modsched_verdict *one, const struct modsched_verdict *other) { return memcmp(one, other, sizeof *one) == 0; }

int is_solved_right(const struct worked *worked) {
    size_t operations = worked->problem.operations_count, values = worked->problem.values_count;
    struct modsched_answer answer, wanted = no_answer();
    struct arrays arrays;
    uint32_t status;
    mark(&arrays);
    memset(&answer, 99, sizeof answer);
    status = modsched_solve(&worked->problem, worked->ratio, worked->ceiling, arrays.times, ROOM, arrays.alternatives, ROOM, arrays.numbers,
                            ROOM, &answer);
    wanted.interval = worked->interval, wanted.stages = worked->stages;
    wanted.resources = worked->resources, wanted.recurrences = worked->recurrences;
    wanted.mii = worked->resources < worked->recurrences ? worked->recurrences : worked->resources;
    wanted.cause = worked->cause, wanted.file = worked->file, wanted.value = worked->value;
    if (!same_answer(&answer, &wanted)) return 0;
    if (worked->cause) return status == MODSCHED_NO_INTERVAL && is_marked(&arrays);
    return status == MODSCHED_SOLVED && are_marked(arrays.times, operations) && are_marked(arrays.alternatives, operations)
        && are_marked(arrays.numbers, values) && memcmp(arrays.times, worked->times, operations * sizeof(uint64_t)) == 0
        && memcmp(arrays.alternatives, worked->alternatives, operations * sizeof(uint64_t)) == 0
        && memcmp(arrays.numbers, worked->numbers, values * sizeof(uint64_t)) == 0;
}
