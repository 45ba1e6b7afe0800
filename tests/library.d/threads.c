/* Several threads call at once, on one problem and on different ones, each with arrays of its own: all get what one thread gets. Each has a stack of
 * 64 KiB, which docs/LIBRARY.md says is enough. */
#include "worked.h"

#include <pthread.h>

enum { THREADS = 4, ROUNDS = 50, STACK = 64 << 10 };

struct task {
    size_t first; /* the worked problem with which this thread begins */
    int is_wrong;
};

static int is_judged_right(const struct worked *it) {
    size_t operations = it->problem.operations_count;
    struct modsched_verdict verdict;
    if (it->cause) return 1;
    return modsched_check(&it->problem, it->interval, it->times, operations, it->alternatives, operations, it->numbers, it->problem.values_count,
                          &verdict) == MODSCHED_LAWFUL && verdict.stages == it->stages;
}

static void *call(void *given) {
    struct task *task = (struct task *)given;
    size_t round;
    for (round = 0; round < ROUNDS; round++) {
        const struct worked *it = &WORKED[(task->first + round) % WORKED_COUNT];
        if (!is_solved_right(TAPS) || !is_solved_right(it) || !is_judged_right(it)) task->is_wrong = 1;
    }
    return NULL;
}

int main(void) {
    pthread_t threads[THREADS];
    pthread_attr_t small;
    struct task tasks[THREADS];
    size_t i;
    if (pthread_attr_init(&small) != 0 || pthread_attr_setstacksize(&small, STACK) != 0) return 2;
    for (i = 0; i < THREADS; i++) {
        tasks[i].first = i / 2 * 5, tasks[i].is_wrong = 0;
        if (pthread_create(&threads[i], &small, call, &tasks[i]) != 0) return 2;
    }
    for (i = 0; i < THREADS; i++) {
        pthread_join(threads[i], NULL);
        expect(!tasks[i].is_wrong, "what a thread gets");
    }
    return finish();
}
