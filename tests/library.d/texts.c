/* Calls with texts: `texts COMMAND [TRIP] MACHINE LOOPS` writes what a call hands over, and ends with its status; `plain` has no MACHINE, and `run` and
 * `plain` have a TRIP. `texts rooms MACHINE LOOPS` tries rooms of each length round that of the listing, numbers out of their ranges, texts that are
 * refused and loops without a kernel; `texts threads MACHINE LOOPS` calls from two threads at once, with small stacks. Compiled with REFUSES, where the library's malloc, realloc and free are those below,
 * `texts memory MACHINE LOOPS` refuses each growth of memory in turn. Those three end with 0 where all is well. */
#include "modsched.h"

#include <pthread.h>
#include <stdio.h>
#include <stdlib.h>
#include <string.h>

#define RATIO 6
#define CEILING 32

enum command { SCHEDULE, JSON, EXPLAIN, RUN, PLAIN, BOUNDS, EDGES, DOT, COMMANDS };
static const char *const NAMES[COMMANDS] = {"schedule", "json", "explain", "run", "plain", "bounds", "edges", "dot"};

struct text {
    uint8_t *bytes;
    size_t length;
};

struct given {
    struct text machine, loops;
    uint64_t trip, ratio, ceiling;
};

static long calls, held, refused; /* growths that were requested, blocks that are held, and from which growth on all are refused, or 0 */
static int is_alone;              /* whether that growth is the only one */

#ifdef REFUSES
#ifdef __cplusplus
extern "C" {
#endif
void *__real_malloc(size_t size);
void *__real_realloc(void *block, size_t size);
void __real_free(void *block);
void *__wrap_malloc(size_t size);
void *__wrap_realloc(void *block, size_t size);
void __wrap_free(void *block);
#ifdef __cplusplus
}
#endif

static int is_refused(void) {
    calls++;
    return refused != 0 && (is_alone ? calls == refused : calls >= refused);
}

void *__wrap_malloc(size_t size) {
    void *made = is_refused() ? NULL : __real_malloc(size);
    held += made != NULL;
    return made;
}

void *__wrap_realloc(void *block, size_t size) {
    void *made = is_refused() ? NULL : __real_realloc(block, size);
    held += made != NULL && block == NULL;
    return made;
}

void __wrap_free(void *block) {
    held -= block != NULL;
    __real_free(block);
}
#endif

static int wrong = 0;

static void expect(int is_well, const char *what) {
    if (!is_well) {
        printf("wrong: %s\n", what);
        wrong = 1;
    }
}

static struct text read_file(const char *path) {
    struct text text = {NULL, 0};
    FILE *file = fopen(path, "rb");
    size_t many;
    if (file == NULL) exit(99);
    text.bytes = (uint8_t *)malloc(1 << 21);
    if (text.bytes == NULL) exit(99);
    while ((many = fread(text.bytes + text.length, 1, 4096, file)) > 0) text.length += many;
    fclose(file);
    return text;
}

static uint32_t call(enum command command, const struct given *it, uint8_t *out, size_t room, struct modsched_told *told) {
    const uint8_t *m = it->machine.bytes, *l = it->loops.bytes;
    size_t ms = it->machine.length, ls = it->loops.length;
    switch (command) {
        case SCHEDULE: return modsched_schedule(m, ms, l, ls, it->ratio, it->ceiling, out, room, told);
        case JSON: return modsched_json(m, ms, l, ls, it->ratio, it->ceiling, out, room, told);
        case EXPLAIN: return modsched_explain(m, ms, l, ls, it->ratio, it->ceiling, out, room, told);
        case RUN: return modsched_run(m, ms, l, ls, it->trip, it->ratio, it->ceiling, out, room, told);
        case PLAIN: return modsched_plain(l, ls, it->trip, out, room, told);
        case BOUNDS: return modsched_bounds(m, ms, l, ls, out, room, told);
        case EDGES: return modsched_edges(m, ms, l, ls, out, room, told);
        default: return modsched_dot(m, ms, l, ls, out, room, told);
    }
}

static int same_told(const struct modsched_told *told, uint64_t bytes, uint64_t line, uint64_t misfit) {
    return told->bytes == bytes && told->line == line && told->misfit == misfit;
}

/* A first call without room, and a second one with all that is needed. */
static int print(enum command command, const struct given *it) {
    struct modsched_told first, told;
    uint8_t none = 0, *out;
    uint32_t status = call(command, it, &none, 0, &first);
    out = (uint8_t *)malloc((size_t)first.bytes + 1);
    if (out == NULL || call(command, it, out, (size_t)first.bytes, &told) != status || !same_told(&told, first.bytes, first.line, first.misfit)) return 98;
    fwrite(out, 1, (size_t)told.bytes, stdout);
    free(out);
    return (int)status;
}

static int is_all(const uint8_t *bytes, size_t from, size_t to, uint8_t byte) {
    for (; from < to; from++)
        if (bytes[from] != byte) return 0;
    return 1;
}

/* Rooms that are empty, too small by a byte, just large enough, and larger. */
static void rooms_of(enum command command, const struct given *it) {
    struct modsched_told told;
    size_t whole, length, room;
    uint8_t *text, *out;
    uint32_t status = call(command, it, (uint8_t *)&whole, 0, &told);
    whole = (size_t)told.bytes;
    text = (uint8_t *)malloc(whole + 16), out = (uint8_t *)malloc(whole + 16);
    if (text == NULL || out == NULL) exit(99);
    memset(text, 0xa5, whole + 16);
    expect(call(command, it, text, whole, &told) == status && same_told(&told, whole, 0, 0), "the length of the text");
    expect(whole > 3 && text[whole - 1] == '\n' && is_all(text, whole, whole + 16, 0xa5), "nothing stands behind the text");
    for (length = 0; length < 6; length++) {
        room = length == 0 ? 0 : length == 1 ? 1 : whole + length - 3; /* 0, 1, and from one byte short to two more than enough */
        memset(out, 0x5a, whole + 16), memset(&told, 9, sizeof told);
        expect(call(command, it, out, room, &told) == status && same_told(&told, whole, 0, 0), "the length, whatever the room");
        expect(memcmp(out, text, room < whole ? room : whole) == 0, "the beginning of the text");
        expect(is_all(out, room < whole ? room : whole, whole + 16, 0x5a), "what is behind it");
    }
    free(text), free(out);
}

/* A call that hands over this line, or nothing for NULL. */
static void refuses(enum command command, const struct given *it, uint32_t status, uint64_t line, uint64_t misfit, const char *text) {
    struct modsched_told told;
    uint8_t out[256];
    size_t length = text == NULL ? 0 : strlen(text);
    memset(out, 0x5a, sizeof out), memset(&told, 9, sizeof told);
    expect(call(command, it, out, sizeof out, &told) == status, NAMES[command]);
    expect(same_told(&told, length, line, misfit), "what is told of a refusal");
    expect((length == 0 || memcmp(out, text, length) == 0) && is_all(out, length, sizeof out, 0x5a), "the line of a refusal");
}

static struct text literal(const char *text) {
    struct text made;
    made.bytes = (uint8_t *)malloc(strlen(text) + 1), made.length = strlen(text);
    if (made.bytes == NULL) exit(99);
    memcpy(made.bytes, text, made.length);
    return made;
}

static void rooms(const struct given *well) {
    struct given it = *well;
    int command;
    for (command = 0; command < COMMANDS; command++) rooms_of((enum command)command, well);
    for (command = SCHEDULE; command <= RUN; command++) {
        it = *well, it.ratio = 0, it.ceiling = 256, it.trip = 100001;
        refuses((enum command)command, &it, MODSCHED_OUTSIDE, 0, 1, NULL);
        it.ratio = 65;
        refuses((enum command)command, &it, MODSCHED_OUTSIDE, 0, 1, NULL);
        it.ratio = 64;
        refuses((enum command)command, &it, MODSCHED_OUTSIDE, 0, 2, NULL);
    }
    it = *well, it.trip = 100001;
    refuses(RUN, &it, MODSCHED_OUTSIDE, 0, 3, NULL);
    refuses(PLAIN, &it, MODSCHED_OUTSIDE, 0, 3, NULL);
    it = *well, it.ratio = 64, it.ceiling = 255, it.trip = 0;
    for (command = 0; command < COMMANDS; command++) rooms_of((enum command)command, &it);
    for (command = 0; command < COMMANDS; command++) {
        it = *well, it.loops = literal("loop one\nt = no\nend\n");
        refuses((enum command)command, &it, MODSCHED_LOOPS_REFUSED, 2, 0, "loops: line 2: syntax");
        free(it.loops.bytes), it = *well;
        it.machine = literal("units");
        if (command != PLAIN) refuses((enum command)command, &it, MODSCHED_MACHINE_REFUSED, 0, 0, "machine: not TOML");
        free(it.machine.bytes), it = *well;
        it.loops = literal("loop one\nt = sel 1 2 3\nend\n");
        if (command != PLAIN) refuses((enum command)command, &it, MODSCHED_LOOPS_REFUSED, 0, 0, "loops: loop one: no table for sel");
        free(it.loops.bytes);
    }
}

/* The two statuses with a text: each loop has a kernel; or of one register some loop has none, since its sum is carried on while another number is
 * loaded. Without a search there is nothing that could fail. */
static void statuses(const struct given *well) {
    struct given it = *well;
    struct modsched_told told;
    uint8_t out[1 << 12];
    int command;
    for (command = 0; command < COMMANDS; command++)
        expect(call((enum command)command, well, out, sizeof out, &told) == MODSCHED_PRINTED, NAMES[command]);
    it.machine = literal("registers = 1\nunits = [\"mem\", \"alu\"]\n[ops.load]\nlatency = 3\nalts = [[\"mem@0\"]]\n"
                         "[ops.store]\nlatency = 1\nalts = [[\"mem@0\"]]\n[ops.add]\nlatency = 1\nalts = [[\"alu@0\"]]\n");
    for (command = 0; command < COMMANDS; command++)
        expect(call((enum command)command, &it, out, sizeof out, &told) == (command <= RUN ? MODSCHED_UNMET : MODSCHED_PRINTED), NAMES[command]);
    free(it.machine.bytes);
}

static void *often(void *given) {
    const struct given *it = (const struct given *)given;
    static const size_t room = 1 << 16;
    uint8_t *first = (uint8_t *)malloc(room), *out = (uint8_t *)malloc(room);
    struct modsched_told told, again;
    void *bad = NULL;
    int i, command;
    if (first == NULL || out == NULL) exit(99);
    for (command = 0; command < COMMANDS; command++) {
        uint32_t status = call((enum command)command, it, first, room, &told);
        for (i = 0; i < 100; i++)
            if (call((enum command)command, it, out, room, &again) != status || again.bytes != told.bytes
                || memcmp(out, first, (size_t)(told.bytes < room ? told.bytes : room)) != 0) bad = given;
    }
    free(first), free(out);
    return bad;
}

/* Two threads at once, each with a stack of 64 KiB, which docs/LIBRARY.md says is enough. */
static void two(void *(*work)(void *), struct given *it, const char *what) {
    pthread_t made[2];
    pthread_attr_t small;
    void *bad = NULL;
    int i;
    expect(pthread_attr_init(&small) == 0 && pthread_attr_setstacksize(&small, 64 << 10) == 0, "a small stack");
    for (i = 0; i < 2; i++) expect(pthread_create(&made[i], &small, work, it) == 0, "a thread");
    for (i = 0; i < 2; i++) {
        pthread_join(made[i], &bad);
        expect(bad == NULL, what);
    }
}

/* NULL where each call that reads a machine refuses this one, else what was given. */
static void *all_refuse(void *given) {
    int command;
    for (command = 0; command < COMMANDS; command++) {
        uint8_t out[64];
        struct modsched_told told;
        if (command != PLAIN && call((enum command)command, (struct given *)given, out, sizeof out, &told) != MODSCHED_MACHINE_REFUSED) return given;
    }
    return NULL;
}

/* Machines of which the reader may go deep: so many brackets, tables and keys within one another. */
static void deep(const struct given *it) {
    static const char *const forms[3][2] = {{"a = ", "["}, {"a = ", "{a="}, {"a", ".a"}};
    struct given other = *it;
    int form;
    size_t at, head, part;
    uint8_t *bytes = (uint8_t *)malloc(1 << 19);
    if (bytes == NULL) exit(99);
    for (form = 0; form < 3; form++) {
        head = strlen(forms[form][0]), part = strlen(forms[form][1]);
        memcpy(bytes, forms[form][0], head);
        for (at = head; at + part <= 1 << 19; at += part) memcpy(bytes + at, forms[form][1], part);
        other.machine.bytes = bytes, other.machine.length = at;
        two(all_refuse, &other, "a machine that is deep");
    }
    free(bytes);
}

static void threads(struct given *it) {
    two(often, it, "two threads at once");
    deep(it);
}

/* With each growth refused, alone or with all after it, a call ends with 7 and nothing handed over, and gives back what it took. */
static void memory(const struct given *it) {
    static uint8_t out[1 << 16], wanted[1 << 16];
    struct modsched_told told, well;
    int at, command;
    for (at = 0; at < 2 * COMMANDS; at++) {
        uint32_t status;
        long all, before = held;
        command = at / 2, is_alone = at % 2;
        refused = 0, calls = 0;
        status = call((enum command)command, it, wanted, sizeof wanted, &well);
        all = calls;
        expect(all > 0 && held == before, "a call keeps nothing");
        for (refused = 1; refused <= all; refused++) {
            uint32_t got;
            calls = 0;
            memset(out, 0x5a, sizeof out), memset(&told, 9, sizeof told);
            got = call((enum command)command, it, out, sizeof out, &told);
            expect(held == before, "a call that is refused memory keeps nothing");
            if (got == MODSCHED_OUT_OF_MEMORY)
                expect(same_told(&told, 0, 0, 0) && is_all(out, 0, sizeof out, 0x5a), "nothing is handed over without memory");
            else /* a growth that it can do without */
                expect(got == status && same_told(&told, well.bytes, 0, 0) && memcmp(out, wanted, (size_t)well.bytes) == 0, "all is handed over, or nothing");
            if (refused == 1 && !is_alone) expect(got == MODSCHED_OUT_OF_MEMORY, "without any memory");
        }
        refused = 0;
    }
}

int main(int count, char **words) {
    struct given it;
    int command, at = 2;
    memset(&it, 0, sizeof it);
    it.ratio = RATIO, it.ceiling = CEILING, it.trip = 5;
    if (count < 3) return 99;
    for (command = 0; command < COMMANDS && strcmp(words[1], NAMES[command]) != 0; command++) continue;
    if (command == RUN || command == PLAIN) it.trip = strtoull(words[at++], NULL, 10);
    if (command != PLAIN && at < count) it.machine = read_file(words[at++]);
    if (at >= count) return 99;
    it.loops = read_file(words[at]);
    if (command < COMMANDS) return print((enum command)command, &it);
    if (strcmp(words[1], "rooms") == 0) rooms(&it), statuses(&it);
    else if (strcmp(words[1], "threads") == 0) threads(&it);
    else if (strcmp(words[1], "memory") == 0) memory(&it);
    else return 99;
    return wrong;
}
