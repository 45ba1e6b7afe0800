/* The structs are laid out as the library has them: numbers one after another, with nothing between them but what a pointer's alignment needs. */
#include "worked.h"

#define IS(condition) (void)sizeof(char[(condition) ? 1 : -1])
#define AT(type, field, place) IS(offsetof(struct type, field) == (place))

int main(void) {
    IS(sizeof(void *) == 8 && sizeof(size_t) == 8);
    IS(sizeof(struct modsched_hold) == 8);
    AT(modsched_hold, offset, 4);
    IS(sizeof(struct modsched_alternative) == 16);
    AT(modsched_alternative, count, 8);
    IS(sizeof(struct modsched_kind) == 24);
    AT(modsched_kind, alternatives, 8);
    AT(modsched_kind, alternatives_count, 16);
    IS(sizeof(struct modsched_value) == 16);
    AT(modsched_value, lands, 4);
    AT(modsched_value, out, 8);
    AT(modsched_value, file, 12);
    IS(sizeof(struct modsched_read) == 16);
    AT(modsched_read, reader, 4);
    AT(modsched_read, distance, 8);
    AT(modsched_read, offset, 12);
    IS(sizeof(struct modsched_order) == 16);
    AT(modsched_order, to, 4);
    AT(modsched_order, delay, 8);
    AT(modsched_order, distance, 12);
    IS(sizeof(struct modsched_problem) == 104);
    AT(modsched_problem, files, 8);
    AT(modsched_problem, kinds, 24);
    AT(modsched_problem, operations, 40);
    AT(modsched_problem, values, 56);
    AT(modsched_problem, reads, 72);
    AT(modsched_problem, orders, 88);
    AT(modsched_problem, orders_count, 96);
    IS(sizeof(struct modsched_fault) == 40);
    IS(sizeof(struct modsched_answer) == 112);
    AT(modsched_answer, cause, 40);
    AT(modsched_answer, misfit, 64);
    AT(modsched_answer, fault, 72);
    IS(sizeof(struct modsched_verdict) == 176);
    AT(modsched_verdict, from, 48);
    AT(modsched_verdict, delay, 72);
    AT(modsched_verdict, register_number, 112);
    AT(modsched_verdict, misfit, 128);
    AT(modsched_verdict, fault, 136);
    return 0;
}
