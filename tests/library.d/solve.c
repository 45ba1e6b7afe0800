/* Each worked problem is solved as it has to be, and each of their schedules is lawful. */
#include "worked.h"

int main(void) {
    size_t i;
    for (i = 0; i < WORKED_COUNT; i++) {
        const struct worked *it = &WORKED[i];
        struct modsched_verdict verdict, wanted = no_verdict();
        uint32_t status;
        expect_of(is_solved_right(it), it->name, "it is solved");
        if (it->cause) continue;
        status = modsched_check(&it->problem, it->interval, it->times, it->problem.operations_count, it->alternatives,
                                it->problem.operations_count, it->numbers, it->problem.values_count, &verdict);
        wanted.stages = it->stages;
        expect_of(status == MODSCHED_LAWFUL && same_verdict(&verdict, &wanted), it->name, "its schedule is lawful");
    }
    return finish();
}
