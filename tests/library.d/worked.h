/* What the test programs share: problems whose schedules are worked out by hand, and what is expected. */
#ifndef WORKED_H
#define WORKED_H

#include "modsched.h"

#ifdef __cplusplus
extern "C" {
#endif

/* More than any of the worked problems has of operations or of values. */
#define ROOM 8

/* A problem with the settings that it is solved with, and what that gives. */
struct worked {
    const char *name;
    struct modsched_problem problem;
    uint64_t ratio, ceiling;
    uint64_t resources, recurrences; /* the bounds by the units and by the recurrences */
    uint64_t interval, stages;       /* of the schedule; no stages where there is none, and then the last interval that is tried */
    uint64_t times[ROOM], alternatives[ROOM], numbers[ROOM];
    uint64_t cause, file, value; /* why there is none */
};

extern const struct worked WORKED[];
extern const size_t WORKED_COUNT;

/* The first of them, which the other tests change: two taps of a filter. It has six operations and six values. */
extern const struct worked *const TAPS;

/* The arrays that a schedule is written to. */
struct arrays {
    uint64_t times[ROOM], alternatives[ROOM], numbers[ROOM];
};

/* Marks each item, so that a later test sees which were written. */
void mark(struct arrays *arrays);

/* Whether all items from a place on have their mark. */
int are_marked(const uint64_t *items, size_t from);

/* Whether no item was written. */
int is_marked(const struct arrays *arrays);

/* The problem is solved as it has to be: status, answer, arrays, and nothing after them. */
int is_solved_right(const struct worked *worked);

/* Answers and verdicts in which everything is 0. */
struct modsched_answer no_answer(void);
struct modsched_verdict no_verdict(void);

/* Whether two have the same numbers. */
int same_answer(const struct modsched_answer *one, const struct modsched_answer *other);
int same_verdict(const struct modsched_verdict *one, const struct modsched_verdict *other);

/* A condition that has to hold. */
void expect(int is_well, const char *what);
void expect_of(int is_well, const char *of, const char *what);

/* The exit status: 1 if something was wrong. */
int finish(void);

#ifdef __cplusplus
}
#endif

#endif
