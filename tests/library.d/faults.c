/* Each fault of a problem, told by both calls: one thing of a sound problem is changed, to just past its limit where it has one. */
#include "worked.h"

#include <string.h>

/* A problem whose parts can be changed, with room for one item more than there may be. */
struct parts {
    uint32_t files[9];
    struct modsched_hold holds[3][17];
    struct modsched_alternative alternatives[17];
    struct modsched_kind kinds[257];
    uint32_t operations[129];
    struct modsched_value values[257];
    struct modsched_read reads[2049];
    struct modsched_order orders[16385];
};
static struct parts part;
static struct modsched_problem problem;

static void set_hold(struct modsched_hold *hold, uint32_t unit, uint32_t offset) { hold->unit = unit, hold->offset = offset; }

static void set_value(struct modsched_value *value, uint32_t maker, uint32_t lands, uint32_t file) {
    value->maker = maker, value->lands = lands, value->file = file;
}

static void set_read(struct modsched_read *read, uint32_t value, uint32_t reader, uint32_t distance, uint32_t offset) {
    read->value = value, read->reader = reader, read->distance = distance, read->offset = offset;
}

static void set_order(struct modsched_order *order, uint32_t from, uint32_t to, int32_t delay, uint32_t distance) {
    order->from = from, order->to = to, order->delay = delay, order->distance = distance;
}

/* Two units; a file of four registers and one that is not allotted; a kind with one alternative of one hold and a kind with two of two; three
 * operations, two values, two reads and two orders. The items after them are as the first ones, so that a greater count is all that is wrong. */
static void make_sound(void) {
    size_t i;
    memset(&part, 0, sizeof part), memset(&problem, 0, sizeof problem);
    part.files[0] = 4;
    for (i = 1; i < 3; i++) set_hold(&part.holds[i][0], 0, 0), set_hold(&part.holds[i][1], 1, 1);
    for (i = 0; i < 17; i++) part.alternatives[i].holds = part.holds[i < 3 ? i : 2], part.alternatives[i].count = i == 0 ? 1 : 2;
    for (i = 0; i < 257; i++) part.kinds[i].latency = 1, part.kinds[i].alternatives = part.alternatives, part.kinds[i].alternatives_count = 1;
    part.kinds[1].latency = 2, part.kinds[1].alternatives = &part.alternatives[1], part.kinds[1].alternatives_count = 2;
    part.operations[1] = 1;
    for (i = 0; i < 257; i++) set_value(&part.values[i], 0, 1, 0);
    set_value(&part.values[1], 1, 2, 1);
    for (i = 0; i < 2049; i++) set_read(&part.reads[i], 0, 1, 0, 0);
    set_read(&part.reads[1], 1, 0, 1, 1);
    for (i = 0; i < 16385; i++) set_order(&part.orders[i], 0, 2, -1, 0);
    set_order(&part.orders[1], 2, 0, 1, 3);
    problem.units = 2;
    problem.files = part.files, problem.files_count = 2;
    problem.kinds = part.kinds, problem.kinds_count = 2;
    problem.operations = part.operations, problem.operations_count = 3;
    problem.values = part.values, problem.values_count = 2;
    problem.reads = part.reads, problem.reads_count = 2;
    problem.orders = part.orders, problem.orders_count = 2;
}

/* Arrays with room for as many as any problem here has. */
enum { MOST = 300 };
static uint64_t times[MOST], alternatives[MOST], numbers[MOST];

/* Both calls tell this and nothing else, and write to no array. */
static int is_told(uint64_t kind, uint64_t of_part, uint64_t first, uint64_t second, uint64_t third) {
    struct modsched_answer answer, wanted = no_answer();
    struct modsched_verdict verdict, silent = no_verdict();
    uint32_t solved, checked;
    size_t i;
    wanted.fault.kind = kind, wanted.fault.part = of_part;
    wanted.fault.first = first, wanted.fault.second = second, wanted.fault.third = third;
    silent.fault = wanted.fault;
    memset(&answer, 99, sizeof answer), memset(&verdict, 99, sizeof verdict);
    for (i = 0; i < MOST; i++) times[i] = alternatives[i] = numbers[i] = 77;
    solved = modsched_solve(&problem, 6, 0, times, MOST, alternatives, MOST, numbers, MOST, &answer);
    /* (the schedule is wrong in many ways, but the problem comes first) */
    checked = modsched_check(&problem, 0, times, 1, alternatives, 1, numbers, 5, &verdict);
    for (i = 0; i < MOST; i++)
        if (times[i] != 77 || alternatives[i] != 77 || numbers[i] != 77) return 0;
    return solved == MODSCHED_FAULT && checked == MODSCHED_CHECK_FAULT && same_answer(&answer, &wanted) && same_verdict(&verdict, &silent);
}

/* Neither call finds a fault. */
static int is_sound(void) {
    struct modsched_answer answer;
    struct modsched_verdict verdict;
    uint32_t solved = modsched_solve(&problem, 1, 0, times, MOST, alternatives, MOST, numbers, MOST, &answer);
    uint32_t checked = modsched_check(&problem, 0, times, 0, alternatives, 0, numbers, 0, &verdict);
    return solved <= MODSCHED_NO_INTERVAL && checked == MODSCHED_BROKEN && verdict.kind == MODSCHED_BREAK_INTERVAL;
}

/* The fault that a change makes, with its part and its numbers. */
#define FAULT(change, kind, of_part, first, second, third) \
    (make_sound(), change, expect_of(is_told(kind, of_part, first, second, third), "the fault", #change))
/* A change up to a limit makes none. */
#define LIMIT(change) (make_sound(), change, expect_of(is_sound(), "no fault", #change))

static void counts(void) {
    FAULT(problem.units = 0, MODSCHED_FAULT_COUNT, 1, 0, 0, 0);
    FAULT(problem.units = 65, MODSCHED_FAULT_COUNT, 1, 65, 0, 0);
    FAULT(problem.files_count = 9, MODSCHED_FAULT_COUNT, 2, 9, 0, 0);
    FAULT(problem.kinds_count = 0, MODSCHED_FAULT_COUNT, 3, 0, 0, 0);
    FAULT(problem.kinds_count = 257, MODSCHED_FAULT_COUNT, 3, 257, 0, 0);
    FAULT(problem.operations_count = 0, MODSCHED_FAULT_COUNT, 4, 0, 0, 0);
    FAULT(problem.operations_count = 129, MODSCHED_FAULT_COUNT, 4, 129, 0, 0);
    FAULT(problem.values_count = 257, MODSCHED_FAULT_COUNT, 5, 257, 0, 0);
    FAULT(problem.reads_count = 2049, MODSCHED_FAULT_COUNT, 6, 2049, 0, 0);
    FAULT(problem.orders_count = 16385, MODSCHED_FAULT_COUNT, 7, 16385, 0, 0);
    LIMIT(problem.units = 64);
    LIMIT(problem.files_count = 8);
    LIMIT(problem.kinds_count = 256);
    LIMIT(problem.operations_count = 128);
    LIMIT(problem.values_count = 256);
    LIMIT(problem.reads_count = 2048);
    LIMIT(problem.orders_count = 16384);
}

static void kinds(void) {
    FAULT(part.files[1] = 257, MODSCHED_FAULT_REGISTERS, 0, 1, 0, 0);
    FAULT(part.kinds[1].latency = 0, MODSCHED_FAULT_LATENCY, 0, 1, 0, 0);
    FAULT(part.kinds[1].latency = 65, MODSCHED_FAULT_LATENCY, 0, 1, 0, 0);
    FAULT(part.kinds[1].alternatives_count = 0, MODSCHED_FAULT_ALTERNATIVES, 0, 1, 0, 0);
    FAULT((part.kinds[1].alternatives = part.alternatives, part.kinds[1].alternatives_count = 17), MODSCHED_FAULT_ALTERNATIVES, 0, 1, 0, 0);
    FAULT(part.alternatives[2].count = 0, MODSCHED_FAULT_HOLDS, 0, 1, 1, 0);
    FAULT(part.alternatives[2].count = 17, MODSCHED_FAULT_HOLDS, 0, 1, 1, 0);
    FAULT(part.holds[2][1].unit = 2, MODSCHED_FAULT_UNIT, 0, 1, 1, 1);
    FAULT(part.holds[2][1].offset = 64, MODSCHED_FAULT_HOLD_OFFSET, 0, 1, 1, 1);
    FAULT(part.holds[2][1] = part.holds[2][0], MODSCHED_FAULT_REPEATED_HOLD, 0, 1, 1, 1);
    FAULT(part.operations[2] = 2, MODSCHED_FAULT_KIND, 0, 2, 0, 0);
    LIMIT(part.files[1] = 256);
    LIMIT(part.kinds[1].latency = 64);
    LIMIT((part.kinds[1].alternatives = part.alternatives, part.kinds[1].alternatives_count = 16));
    LIMIT(part.holds[2][1].offset = 63);
    LIMIT(part.holds[2][1].unit = 0);
}

/* An alternative of 16 holds, which are different. */
static void holds(void) {
    uint32_t i;
    make_sound();
    for (i = 0; i < 16; i++) set_hold(&part.holds[2][i], 0, i);
    part.alternatives[2].count = 16;
    expect(is_sound(), "16 holds");
    set_hold(&part.holds[2][15], 0, 3);
    expect(is_told(MODSCHED_FAULT_REPEATED_HOLD, 0, 1, 1, 15), "the last of 16 holds repeats another");
}

static void values(void) {
    FAULT(part.values[1].maker = 3, MODSCHED_FAULT_MAKER, 0, 1, 0, 0);
    FAULT(part.values[1].lands = 65, MODSCHED_FAULT_LANDS, 0, 1, 0, 0);
    FAULT(part.values[1].file = 2, MODSCHED_FAULT_FILE, 0, 1, 0, 0);
    FAULT(problem.files_count = 0, MODSCHED_FAULT_FILE, 0, 0, 0, 0);
    FAULT(part.reads[1].value = 2, MODSCHED_FAULT_VALUE, 0, 1, 0, 0);
    FAULT(part.reads[1].reader = 3, MODSCHED_FAULT_READER, 0, 1, 0, 0);
    FAULT(part.reads[1].distance = 17, MODSCHED_FAULT_READ_DISTANCE, 0, 1, 0, 0);
    FAULT(part.reads[1].offset = 64, MODSCHED_FAULT_READ_OFFSET, 0, 1, 0, 0);
    FAULT(part.reads[1].distance = 0, MODSCHED_FAULT_READ_BACKWARD, 0, 1, 0, 0);
    FAULT(part.reads[0].reader = 0, MODSCHED_FAULT_READ_BACKWARD, 0, 0, 0, 0);
    LIMIT(part.values[1].lands = 64);
    LIMIT(part.values[1].lands = 0);
    LIMIT(part.reads[1].distance = 16);
    LIMIT(part.reads[1].offset = 63);
}

static void orders(void) {
    FAULT(part.orders[1].from = 3, MODSCHED_FAULT_FROM, 0, 1, 0, 0);
    FAULT(part.orders[1].to = 3, MODSCHED_FAULT_TO, 0, 1, 0, 0);
    FAULT(part.orders[1].delay = 65, MODSCHED_FAULT_DELAY, 0, 1, 0, 0);
    FAULT(part.orders[1].delay = -65, MODSCHED_FAULT_DELAY, 0, 1, 0, 0);
    FAULT(part.orders[1].distance = 256, MODSCHED_FAULT_ORDER_DISTANCE, 0, 1, 0, 0);
    FAULT(part.orders[1].distance = 0, MODSCHED_FAULT_ORDER_BACKWARD, 0, 1, 0, 0);
    FAULT(part.orders[0].to = 0, MODSCHED_FAULT_ORDER_BACKWARD, 0, 0, 0, 0);
    LIMIT(part.orders[1].delay = 64);
    LIMIT(part.orders[1].delay = -64);
    LIMIT(part.orders[1].distance = 255);
}

/* Of several faults the first is told: counts, and then the parts in the order of the struct. */
static void several(void) {
    make_sound();
    part.orders[0].delay = 65;
    expect(is_told(MODSCHED_FAULT_DELAY, 0, 0, 0, 0), "an order at fault");
    part.reads[1].offset = 64;
    expect(is_told(MODSCHED_FAULT_READ_OFFSET, 0, 1, 0, 0), "a read and an order at fault");
    part.values[1].file = 2;
    expect(is_told(MODSCHED_FAULT_FILE, 0, 1, 0, 0), "a value, too");
    part.operations[2] = 2;
    expect(is_told(MODSCHED_FAULT_KIND, 0, 2, 0, 0), "an operation, too");
    part.holds[2][0].offset = 64;
    expect(is_told(MODSCHED_FAULT_HOLD_OFFSET, 0, 1, 1, 0), "a hold, too");
    part.kinds[0].latency = 0;
    expect(is_told(MODSCHED_FAULT_LATENCY, 0, 0, 0, 0), "a latency, too");
    part.files[0] = 257;
    expect(is_told(MODSCHED_FAULT_REGISTERS, 0, 0, 0, 0), "a file, too");
    problem.orders_count = 16385;
    expect(is_told(MODSCHED_FAULT_COUNT, 7, 16385, 0, 0), "a count, too");
    problem.units = 0;
    expect(is_told(MODSCHED_FAULT_COUNT, 1, 0, 0, 0), "another count before it");
}

int main(void) {
    make_sound();
    expect(is_sound(), "the problem without a change");
    counts();
    kinds();
    holds();
    values();
    orders();
    several();
    return finish();
}
