/* Each growth of memory is refused in turn, with all that come after it, and alone. The status is 7, nothing is written but an empty answer, and
 * nothing is left behind. (Where a growth is refused alone, the library may do with less, and go on to what is right.) The program is linked so that
 * the library's malloc, realloc and free are those below. */
#include "worked.h"

#include <stdlib.h>
#include <string.h>

#ifdef __cplusplus
extern "C" {
#endif
void *__real_malloc(size_t size);
void *__real_realloc(void *block, size_t size);
void __real_free(void *block);
void *__wrap_malloc(size_t size);
void *__wrap_realloc(void *block, size_t size);
void __wrap_free(void *block);
#ifdef __cplusplus
}
#endif

static long calls, held; /* how many growths were requested, and how many blocks are held */
static long refused;     /* the growth that is refused, from 1, or 0 for none */
static int is_alone;     /* whether those after it are granted */

static int is_refused(void) {
    calls++;
    return refused && (is_alone ? calls == refused : calls >= refused);
}

void *__wrap_malloc(size_t size) {
    void *made = is_refused() ? NULL : __real_malloc(size);
    held += made != NULL;
    return made;
}

void *__wrap_realloc(void *block, size_t size) {
    void *made = is_refused() ? NULL : __real_realloc(block, size);
    held += made != NULL && block == NULL;
    return made;
}

void __wrap_free(void *block) {
    held -= block != NULL;
    __real_free(block);
}

/* Solves a worked problem; whether memory ran out as it has to. */
static int is_solve_refused(const struct worked *it) {
    struct modsched_answer answer, wanted = no_answer();
    struct arrays arrays;
    mark(&arrays), memset(&answer, 99, sizeof answer);
    return modsched_solve(&it->problem, it->ratio, it->ceiling, arrays.times, ROOM, arrays.alternatives, ROOM, arrays.numbers, ROOM, &answer)
               == MODSCHED_MEMORY && same_answer(&answer, &wanted) && is_marked(&arrays);
}

static uint32_t check(const struct worked *it, struct modsched_verdict *verdict) {
    size_t operations = it->problem.operations_count;
    memset(verdict, 99, sizeof *verdict);
    return modsched_check(&it->problem, it->interval, it->times, operations, it->alternatives, operations, it->numbers, it->problem.values_count, verdict);
}

static int is_checked_right(const struct worked *it) {
    struct modsched_verdict verdict;
    return check(it, &verdict) == MODSCHED_LAWFUL && verdict.stages == it->stages;
}

static int is_check_refused(const struct worked *it) {
    struct modsched_verdict verdict, wanted = no_verdict();
    return check(it, &verdict) == MODSCHED_CHECK_MEMORY && same_verdict(&verdict, &wanted);
}

/* A call in which nothing is refused, and then each growth that it requested. */
static void refuse_each(const struct worked *it, int (*is_right)(const struct worked *), int (*is_told)(const struct worked *)) {
    long needed, at;
    refused = 0, calls = 0, held = 0;
    expect_of(is_right(it), it->name, "nothing is refused");
    expect_of(held == 0, it->name, "nothing is left behind");
    needed = calls;
    expect_of(needed > 0, it->name, "memory is asked for");
    for (is_alone = 0; is_alone < 2; is_alone++) {
        for (at = 1; at <= needed; at++) {
            int is_well;
            refused = at, calls = 0, held = 0;
            is_well = is_told(it);
            if (!is_well && is_alone) calls = 0, is_well = is_right(it);
            expect_of(is_well, it->name, is_alone ? "a growth is refused" : "all growths from one on are refused");
            expect_of(held == 0, it->name, "nothing is left behind where memory runs out");
        }
    }
    /* (so that a growth which is requested now and was not before would be noticed) */
    refused = needed + 1, calls = 0;
    expect_of(is_right(it), it->name, "no further growth is asked for");
    refused = 0;
}

int main(void) {
    size_t i;
    for (i = 0; i < WORKED_COUNT; i++) {
        refuse_each(&WORKED[i], is_solved_right, is_solve_refused);
        if (!WORKED[i].cause) refuse_each(&WORKED[i], is_checked_right, is_check_refused);
    }
    return finish();
}
