/* modsched.h - the proved scheduler for C and C++: a problem in arrays of numbers is solved into the caller's arrays,
 * schedules that the caller gives are checked, and what the program prints of texts is written into the caller's room.
 *
 * Types and sizes are those of 64-bit machines. All numbers count from 0 unless something else is said. Times, offsets, latencies
 * and delays are in cycles; a distance is in iterations.
 *
 * Arrays. An array is a pointer and a length. No pointer may be null: an array without items needs a valid, aligned pointer too,
 * for example to an item that is not part of it. It has as many items as its length says, also where that is above its limit: arrays
 * are read before their lengths are tested. What is written (times, alternatives, numbers and the answer, or the verdict) must not overlap
 * one another, nor anything that is read. The library keeps no pointer when a call returns.
 *
 * Threads. There is no state and nothing to set up: any number of threads may call at once, each with arrays of its own to write.
 * Memory is taken from malloc, and is free again when a call returns. No call from a signal handler, nor from the forked child of
 * a process with threads.
 */
#ifndef MODSCHED_H
#define MODSCHED_H

#include <stddef.h>
#include <stdint.h>

/* The version of the program and of the libraries. */
#define MODSCHED_VERSION "0.1.0"

#ifdef __cplusplus
extern "C" {
#endif

/* An operation holds a unit in the cycle `offset` (0 to 63) after its issue. No two operations, of whatever iterations, hold a unit in one cycle. */
struct modsched_hold {
    uint32_t unit;
    uint32_t offset;
};

/* An alternative, which is one way to issue an operation: 1 to 16 different holds. */
struct modsched_alternative {
    const struct modsched_hold *holds;
    size_t count;
};

/* A kind of operations. Its latency is how long an operation takes from its issue until it is done, 1 to 64. No other operation waits for that: what
 * waits is said by reads and orders. It counts for the order in which the search places operations, and for how long values that are live at the end
 * last. Of the alternatives the first one is preferred: in each cycle that is tried the first that is free is taken. */
struct modsched_kind {
    uint64_t latency;
    const struct modsched_alternative *alternatives;
    size_t alternatives_count; /* 1 to 16 */
};

/* A value that each iteration makes; what one iteration makes is an instance of it. An operation may make none, one or several values.
 *
 * An instance lives from the cycle in which it lands to the cycle of its last read, both included, or in the first alone where it is never read. Of a
 * value that is live at the end the last cycle, from the beginning of its iteration, is not below interval * stages, nor below the one in which the last
 * operation of the iteration is done or its last value lands. While an instance lives no other one stands in its register: so none lands there in the
 * cycle of the last read either.
 *
 * A value that is read at a distance above 0, or that is live at the end, has instances before iteration 0: as many as its greatest distance, and
 * one at least. They have to be in their registers before cycle 0. For their sake each instance of such a value lives from the cycle `interval` of its
 * iteration on, if it does not land sooner. */
struct modsched_value {
    uint32_t maker; /* the operation that makes it */
    uint32_t lands; /* how many cycles after its maker's issue it lands, 0 to 64: it can be read from this cycle on */
    uint32_t out;   /* not 0 where it is live at the end */
    uint32_t file;  /* its register file */
};

/* An operation reads a value that was made `distance` (0 to 16) iterations ago, `offset` (0 to 63) cycles after its own issue, and not before it
 * has landed: t(reader) + offset + interval * distance >= t(maker) + lands, where t is an issue time. What is read at distance 0 is made by
 * an operation with a lower number. */
struct modsched_read {
    uint32_t value;
    uint32_t reader;
    uint32_t distance;
    uint32_t offset;
};

/* An order between two operations that no read says, as between a store and a load: t(to) + interval * distance >= t(from) + delay. The delay is
 * -64 to 64, the distance 0 to 255; at distance 0 `from` is below `to`. An operation may wait for its own instance of an earlier iteration. */
struct modsched_order {
    uint32_t from;
    uint32_t to;
    int32_t delay;
    uint32_t distance;
};

/* A scheduling problem. */
struct modsched_problem {
    uint64_t units; /* how many, 1 to 64 */
    const uint32_t *files; /* of each register file its rotating registers, 1 to 256, or 0: its values are allotted to none */
    size_t files_count;    /* 0 to 8 */
    const struct modsched_kind *kinds;
    size_t kinds_count; /* 1 to 256 */
    const uint32_t *operations; /* the kind of each operation, in the order of the iteration */
    size_t operations_count;    /* 1 to 128 */
    const struct modsched_value *values;
    size_t values_count; /* 0 to 256 */
    const struct modsched_read *reads;
    size_t reads_count; /* 0 to 2,048 */
    const struct modsched_order *orders;
    size_t orders_count; /* 0 to 16,384 */
};

/* Kinds of faults of a problem, with what `first`, `second` and `third` of struct modsched_fault then are. (2 and 3 are about names,
 * which this interface does not have.) */
enum {
    MODSCHED_FAULT_COUNT = 1,            /* a count is out of range: the count (its part is `part`) */
    MODSCHED_FAULT_REGISTERS = 4,        /* the registers of a file are above 256: file */
    MODSCHED_FAULT_LATENCY = 5,          /* the latency of a kind is not 1 to 64: kind */
    MODSCHED_FAULT_ALTERNATIVES = 6,     /* the alternatives of a kind are not 1 to 16: kind */
    MODSCHED_FAULT_HOLDS = 7,            /* the holds of an alternative are not 1 to 16: kind, alternative */
    MODSCHED_FAULT_UNIT = 8,             /* no such unit: kind, alternative, hold */
    MODSCHED_FAULT_HOLD_OFFSET = 9,      /* the offset of a hold is above 63: kind, alternative, hold */
    MODSCHED_FAULT_REPEATED_HOLD = 10,   /* a hold is the same as one before it: kind, alternative, hold */
    MODSCHED_FAULT_KIND = 11,            /* no such kind: operation */
    MODSCHED_FAULT_MAKER = 12,           /* no such operation to make it: value */
    MODSCHED_FAULT_LANDS = 13,           /* it lands more than 64 cycles after the issue: value */
    MODSCHED_FAULT_FILE = 14,            /* no such register file: value */
    MODSCHED_FAULT_VALUE = 15,           /* no such value: read */
    MODSCHED_FAULT_READER = 16,          /* no such operation to read it: read */
    MODSCHED_FAULT_READ_DISTANCE = 17,   /* the distance is above 16: read */
    MODSCHED_FAULT_READ_OFFSET = 18,     /* the offset is above 63: read */
    MODSCHED_FAULT_READ_BACKWARD = 19,   /* at distance 0 the maker does not come before the reader: read */
    MODSCHED_FAULT_FROM = 20,            /* no such operation to come first: order */
    MODSCHED_FAULT_TO = 21,              /* no such operation to wait: order */
    MODSCHED_FAULT_DELAY = 22,           /* the delay is not -64 to 64: order */
    MODSCHED_FAULT_ORDER_DISTANCE = 23,  /* the distance is above 255: order */
    MODSCHED_FAULT_ORDER_BACKWARD = 24   /* at distance 0 the first operation does not come before the second: order */
};

/* What is wrong with a problem: the first thing that is. Counts come first, then the parts in the order of the struct, item by item, alternative by
 * alternative and hold by hold. Of several faults of one of these the one with the least number is told. */
struct modsched_fault {
    uint64_t kind; /* 0 for none */
    uint64_t part; /* with MODSCHED_FAULT_COUNT: 1 units, 2 files, 3 kinds, 4 operations, 5 values, 6 reads, 7 orders */
    uint64_t first;
    uint64_t second;
    uint64_t third;
};

/* Why an interval gives no schedule. The operations are not named here; the command `solve` of the program names them. */
enum {
    MODSCHED_CAUSE_TABLE = 1,    /* all alternatives of an operation collide with themselves */
    MODSCHED_CAUSE_BUDGET = 2,   /* an operation has no place when all placements are made */
    MODSCHED_CAUSE_STAGES = 3,   /* an operation is in stage 64 or later */
    MODSCHED_CAUSE_REGISTERS = 4 /* no register is left for a value */
};

/* Which argument of modsched_solve does not fit: of several the first of these. */
enum {
    MODSCHED_MISFIT_RATIO = 1,
    MODSCHED_MISFIT_CEILING = 2,
    MODSCHED_MISFIT_TIMES = 3,        /* there are fewer than operations */
    MODSCHED_MISFIT_ALTERNATIVES = 4, /* there are fewer than operations */
    MODSCHED_MISFIT_NUMBERS = 5       /* there are fewer than values */
};

/* What a call tells beside the schedule. What does not belong to its status is 0. */
struct modsched_answer {
    uint64_t interval; /* status 0: the initiation interval, 1 or more; status 1: the last one that was tried */
    uint64_t stages;   /* status 0: how many stages the schedule has, 1 to 64 */
    uint64_t mii;      /* status 0 and 1: the least interval that is tried, the greater one of the next two */
    uint64_t resources;   /* status 0 and 1: the bound by the units */
    uint64_t recurrences; /* status 0 and 1: the bound by the recurrences */
    uint64_t cause;  /* status 1: why the last interval gives no schedule, MODSCHED_CAUSE_.. */
    uint64_t file;   /* MODSCHED_CAUSE_REGISTERS: the register file */
    uint64_t value;  /* MODSCHED_CAUSE_REGISTERS: its first value that has no register */
    uint64_t misfit; /* status 2: MODSCHED_MISFIT_.. */
    struct modsched_fault fault; /* status 5 */
};

/* What modsched_solve gives. */
enum {
    MODSCHED_SOLVED = 0,      /* the schedule is written */
    MODSCHED_NO_INTERVAL = 1, /* no interval that was tried gives a schedule */
    MODSCHED_MISFIT = 2,      /* a setting is out of its range, or an array is too short; this is tested first */
    MODSCHED_FAULT = 5,       /* the problem is at fault */
    MODSCHED_MEMORY = 7       /* memory ran out, which says nothing of the problem */
};

/* Solves a problem. Intervals are tried from the answer's mii on, at most `ceiling` (0 to 255) above it, each with at most `ratio`
 * (1 to 64) times as many placements as there are operations; 6 and 64 are fair choices (the command `solve` takes 6 and 32). The schedule is
 * that of the least interval that gives one.
 *
 * With status 0, of each operation the issue time in its iteration (less than 64 intervals) is in `times` and the number of the
 * alternative in `alternatives`; both need room for as many items as there are operations. Of each value of a rotating file its
 * number is in `numbers`, which needs room for as many items as there are values: the instance of iteration i stands in the register
 * (number - i) modulo the registers of the file, also for an i below 0. The numbers of values of other files are 0. What is after these
 * items stays as it was, and with any other status all of the three arrays do. The answer is written with each status. */
uint32_t modsched_solve(const struct modsched_problem *problem, uint64_t ratio, uint64_t ceiling, uint64_t *times,
                        size_t times_count, uint64_t *alternatives, size_t alternatives_count, uint64_t *numbers,
                        size_t numbers_count, struct modsched_answer *answer);

/* What a schedule breaks, in this order: where it breaks several, the first is told. But times and alternatives (5 and 6) are looked at operation by
 * operation, of each first the time. Of several of one kind that is the first value, operation or file; of edges the one with the least `from`, `to`,
 * `distance` and `delay`, in this order. `residue` is the row of the kernel: a cycle modulo the interval. An edge is an order, or a read: it goes
 * from the maker of its value to the reader, with the delay `lands` less `offset`. */
enum {
    MODSCHED_BREAK_INTERVAL = 1,     /* the interval is not 1 to 16,384 */
    MODSCHED_BREAK_NUMBER_COUNT = 2, /* there is not one number for each value */
    MODSCHED_BREAK_NUMBER = 3,       /* the number of `value` is not below the registers of its file, or not 0 where the file has none */
    MODSCHED_BREAK_TIME_COUNT = 4,   /* there is not one time for each operation */
    MODSCHED_BREAK_TIME = 5,         /* the time of `operation` is above 1,048,575 */
    MODSCHED_BREAK_ALTERNATIVE = 6,  /* `operation` has no such alternative */
    MODSCHED_BREAK_SLOT = 7,         /* `operation` takes a slot, `unit` at `residue`, that `earlier` has; both may be the same one */
    MODSCHED_BREAK_EDGE = 8,         /* t(to) + interval * distance is `early` cycles below t(from) + delay */
    MODSCHED_BREAK_STAGE = 9,        /* `operation` is in stage 64 or later */
    MODSCHED_BREAK_REGISTER = 10     /* instances of the values `other` and `value`, or two of one, stand in `register_number` of `file` in `cycle` */
};

/* What a check tells. What does not belong to its status and kind is 0. */
struct modsched_verdict {
    uint64_t kind;   /* status 1: what is broken first, MODSCHED_BREAK_.. */
    uint64_t stages; /* status 0: how many, 1 to 64 */
    uint64_t operation;
    uint64_t earlier;
    uint64_t unit;
    uint64_t residue;
    uint64_t from;
    uint64_t to;
    uint64_t distance;
    int64_t delay;
    uint64_t early;
    uint64_t value;
    uint64_t other;
    uint64_t file;
    uint64_t register_number;
    uint64_t cycle;  /* from the beginning of iteration 0; the instance of `value` is that of iteration 0 */
    uint64_t misfit; /* status 2: 1, there are not as many times as alternatives */
    struct modsched_fault fault; /* status 5 */
};

/* What modsched_check gives. */
enum {
    MODSCHED_LAWFUL = 0,        /* the schedule is lawful */
    MODSCHED_BROKEN = 1,        /* it is not: the verdict says what is broken first */
    MODSCHED_CHECK_MISFIT = 2,  /* there are not as many times as alternatives; this is tested first */
    MODSCHED_CHECK_FAULT = 5,   /* the problem is at fault */
    MODSCHED_CHECK_MEMORY = 7   /* memory ran out, which says nothing of the schedule */
};

/* Checks a schedule of a problem, from wherever it comes: an interval, and times, alternatives and numbers as modsched_solve writes
 * them, one for each operation or value. They may be any numbers. The verdict is written with each status. */
uint32_t modsched_check(const struct modsched_problem *problem, uint64_t interval, const uint64_t *times, size_t times_count,
                        const uint64_t *alternatives, size_t alternatives_count, const uint64_t *numbers, size_t numbers_count,
                        struct modsched_verdict *verdict);

/* Texts. The calls below take the texts of a machine and of loops, as the program's files have them, and write what a command of the
 * program prints of them, byte for byte. A text is a pointer and a length, at most 1,048,576 bytes; it needs no zero byte after it.
 *
 * `out` is written from its beginning on, with as many bytes as there are and as `room` has; what is after them stays as it was, and no
 * zero byte is added. told->bytes is how many bytes there are in all. So one call with a room of 0 tells how much room is needed, and a second
 * one has all of it written; or, where the room was enough, one call does. The room must not overlap the texts or told.
 *
 * With MODSCHED_PRINTED and MODSCHED_UNMET these bytes are what the command prints. With MODSCHED_MACHINE_REFUSED and
 * MODSCHED_LOOPS_REFUSED they are the line that the program tells of the refusal, such as `loops: line 3: syntax`, without its name and
 * the line feed. With the other two there are none, and the room stays as it was. */

/* What a call with texts tells beside them. What does not belong to its status is 0. */
struct modsched_told {
    uint64_t bytes;  /* how many bytes there are in all, of which the first are in the room */
    uint64_t line;   /* MODSCHED_LOOPS_REFUSED: the line at fault, from 1; 0 where the fault is of no one line, as an opcode without a table */
    uint64_t misfit; /* MODSCHED_OUTSIDE: 1 the ratio, 2 the ceiling, 3 the trip count */
};

/* What a call with texts gives. */
enum {
    MODSCHED_PRINTED = 0,         /* the text is there, and each loop that a kernel was searched for has one */
    MODSCHED_UNMET = 1,           /* the text is there, and some loop has no kernel */
    MODSCHED_OUTSIDE = 2,         /* a number is out of its range; this is tested first, in the order ratio, ceiling, trip count */
    MODSCHED_MACHINE_REFUSED = 4, /* the machine's text is refused */
    MODSCHED_LOOPS_REFUSED = 5,   /* the loops' text is refused, or the machine has no table for an opcode of a loop */
    MODSCHED_OUT_OF_MEMORY = 7    /* memory ran out, which says nothing of the texts */
};

/* `modsched schedule`: the listing. Each loop gets the kernel of the least interval at which the search finds one, or the cause why it finds none.
 * Intervals are tried from the greater bound on, at most `ceiling` (0 to 255) above it, each with at most `ratio` (1 to 64) times as many placements as
 * operations; the program takes 6 and 32 where it is not told others. The calling thread alone searches; what is found is what the program finds with any number of workers. */
uint32_t modsched_schedule(const uint8_t *machine, size_t machine_length, const uint8_t *loops, size_t loops_length, uint64_t ratio,
                           uint64_t ceiling, uint8_t *out, size_t room, struct modsched_told *told);

/* `modsched json`: the same listing as one JSON document. */
uint32_t modsched_json(const uint8_t *machine, size_t machine_length, const uint8_t *loops, size_t loops_length, uint64_t ratio,
                       uint64_t ceiling, uint8_t *out, size_t room, struct modsched_told *told);

/* `modsched explain`: why each loop has its interval: what its bounds come from, what keeps each interval that was tried from a kernel, and
 * when each value of the kernel lives. */
uint32_t modsched_explain(const uint8_t *machine, size_t machine_length, const uint8_t *loops, size_t loops_length, uint64_t ratio,
                          uint64_t ceiling, uint8_t *out, size_t room, struct modsched_told *told);

/* `modsched run`: what the kernel of each loop leaves after `trip` iterations, 0 to 100,000, or the line of a loop that has none. */
uint32_t modsched_run(const uint8_t *machine, size_t machine_length, const uint8_t *loops, size_t loops_length, uint64_t trip,
                      uint64_t ratio, uint64_t ceiling, uint8_t *out, size_t room, struct modsched_told *told);

/* `modsched plain`: what each loop leaves after `trip` iterations, 0 to 100,000, one after another. It reads no machine. Where a loop has a
 * kernel, this is what modsched_run tells of it. */
uint32_t modsched_plain(const uint8_t *loops, size_t loops_length, uint64_t trip, uint8_t *out, size_t room, struct modsched_told *told);

/* `modsched bounds`: ResMII and RecMII of each loop, the bounds of its interval by units and by recurrences. No kernel is searched for, so the
 * status is never MODSCHED_UNMET, nor MODSCHED_OUTSIDE; likewise with the next two. */
uint32_t modsched_bounds(const uint8_t *machine, size_t machine_length, const uint8_t *loops, size_t loops_length, uint8_t *out,
                         size_t room, struct modsched_told *told);

/* `modsched edges`: each dependence of each loop, and the height of each operation. */
uint32_t modsched_edges(const uint8_t *machine, size_t machine_length, const uint8_t *loops, size_t loops_length, uint8_t *out,
                        size_t room, struct modsched_told *told);

/* `modsched dot`: the dependences of each loop as a graph for Graphviz. */
uint32_t modsched_dot(const uint8_t *machine, size_t machine_length, const uint8_t *loops, size_t loops_length, uint8_t *out, size_t room,
                      struct modsched_told *told);

#ifdef __cplusplus
}
#endif

#endif
