// The back end of a small compiler has its loop scheduled by libmodsched, and has wrong schedules of it checked. README.md tells what it prints.
#include "modsched.h"

#include <algorithm>
#include <cstdint>
#include <cstdio>
#include <string>
#include <vector>

namespace {

// ---- The back end: its machine, its opcodes and its loop. Nothing of this is known to the library.

// Four slots. Loads and stores go to the first two, multiplies and shifts to the other two.
const std::vector<std::string> SLOTS = {"slot0", "slot1", "slot2", "slot3"};

enum class Opcode { LoadStep, Multiply, MultiplyAdd, Shift, StoreStep };

// What the machine knows of an opcode: how it is written, the slots that issue it, and after how many cycles it is done.
struct Description {
    std::string name;
    std::vector<std::uint32_t> slots;
    std::uint64_t latency;
};
const std::vector<Description> OPCODES = {
    {"ldstep", {0, 1}, 3}, {"mul", {2, 3}, 3}, {"mac", {2, 3}, 3}, {"shr", {2, 3}, 2}, {"ststep", {0, 1}, 1},
};

// Two register files that rotate.
struct File {
    std::string name;
    std::uint32_t registers;
};
const std::vector<File> FILES = {{"d", 32}, {"p", 8}};
enum : std::uint32_t { DATA, POINTERS };

// A value of the loop: which instruction makes it, how many cycles after its issue it lands, and its register file.
struct Value {
    std::string name;
    std::uint32_t maker, lands, file;
};

// An operand: a value of so many iterations ago. Some are read one cycle after the issue.
struct Operand {
    std::uint32_t value, distance, late;
};

struct Instruction {
    Opcode opcode;
    std::vector<Operand> operands;
    std::string constant; // the register of a coefficient, which does not rotate
};

// A second-order filter: y = (b0 x + b1 x@1 + b2 x@2 + c2 y@2 + c1 y@1) >> 15, where `@1` is one iteration ago. The load and the store step their
// pointers; the accumulator of a multiply-accumulate, and what is shifted, are read late.
enum : std::uint32_t { X, IN, T0, T1, T2, T3, T4, Y, OUT };
const std::vector<Value> VALUES = {
    {"x", 0, 3, DATA},  {"in", 0, 1, POINTERS}, {"t0", 1, 3, DATA}, {"t1", 2, 3, DATA},      {"t2", 3, 3, DATA},
    {"t3", 4, 3, DATA}, {"t4", 5, 3, DATA},     {"y", 6, 2, DATA},  {"out", 7, 1, POINTERS},
};
const std::vector<Instruction> LOOP = {
    {Opcode::LoadStep, {{IN, 1, 0}}, ""},
    {Opcode::Multiply, {{X, 0, 0}}, "b0"},
    {Opcode::MultiplyAdd, {{T0, 0, 1}, {X, 1, 0}}, "b1"},
    {Opcode::MultiplyAdd, {{T1, 0, 1}, {X, 2, 0}}, "b2"},
    {Opcode::MultiplyAdd, {{T2, 0, 1}, {Y, 2, 0}}, "c2"},
    {Opcode::MultiplyAdd, {{T3, 0, 1}, {Y, 1, 0}}, "c1"},
    {Opcode::Shift, {{T4, 0, 1}}, ""},
    {Opcode::StoreStep, {{OUT, 1, 0}, {Y, 0, 0}}, ""},
};

const Description &described(std::size_t instruction) { return OPCODES[static_cast<std::size_t>(LOOP[instruction].opcode)]; }

// An instruction as it is spoken of: its opcode, and the first value that it makes.
std::string called(std::size_t instruction) {
    const auto made = std::find_if(VALUES.begin(), VALUES.end(), [=](const Value &it) { return it.maker == instruction; });
    return described(instruction).name + (made == VALUES.end() ? "" : " " + made->name);
}

// ---- The problem that the library is given: the same in arrays of numbers.

// A pointer to a list's items, which is not null for an empty list either.
template <typename T> const T *items(const std::vector<T> &list) {
    static const T none{};
    return list.empty() ? &none : list.data();
}

class Problem {
  public:
    Problem() {
        for (std::uint32_t slot = 0; slot < SLOTS.size(); slot++) holds_.push_back({slot, 0});
        for (const Description &opcode : OPCODES) {
            alternatives_.emplace_back();
            for (std::uint32_t slot : opcode.slots) alternatives_.back().push_back({&holds_[slot], 1});
        }
        for (std::size_t kind = 0; kind < OPCODES.size(); kind++)
            kinds_.push_back({OPCODES[kind].latency, items(alternatives_[kind]), alternatives_[kind].size()});
        for (const File &file : FILES) files_.push_back(file.registers);
        for (const Value &value : VALUES) values_.push_back({value.maker, value.lands, 0, value.file});
        for (std::uint32_t number = 0; number < LOOP.size(); number++) {
            operations_.push_back(static_cast<std::uint32_t>(LOOP[number].opcode));
            for (const Operand &it : LOOP[number].operands) reads_.push_back({it.value, number, it.distance, it.late});
        }
    }
    Problem(const Problem &) = delete; // (it has pointers into itself)
    Problem &operator=(const Problem &) = delete;

    modsched_problem given() const {
        return {SLOTS.size(),        items(files_),  files_.size(),  items(kinds_), kinds_.size(),  items(operations_),
                operations_.size(), items(values_), values_.size(), items(reads_), reads_.size(), items(orders_),
                orders_.size()};
    }

  private:
    std::vector<modsched_hold> holds_;
    std::vector<std::vector<modsched_alternative>> alternatives_;
    std::vector<modsched_kind> kinds_;
    std::vector<std::uint32_t> files_, operations_;
    std::vector<modsched_value> values_;
    std::vector<modsched_read> reads_;
    std::vector<modsched_order> orders_; // loads and stores of this loop never touch the same cell, so there are none
};

struct Schedule {
    std::uint64_t interval = 0, stages = 0;
    std::vector<std::uint64_t> times = std::vector<std::uint64_t>(LOOP.size());
    std::vector<std::uint64_t> alternatives = std::vector<std::uint64_t>(LOOP.size());
    std::vector<std::uint64_t> numbers = std::vector<std::uint64_t>(VALUES.size());
};

std::uint32_t check(const modsched_problem &problem, const Schedule &it, modsched_verdict &verdict) {
    return modsched_check(&problem, it.interval, it.times.data(), it.times.size(), it.alternatives.data(), it.alternatives.size(),
                          it.numbers.data(), it.numbers.size(), &verdict);
}

// ---- What is printed.

// The register of a value in a file: so many names above the value's number.
std::string register_of(const Schedule &it, std::size_t value, std::uint64_t above) {
    const File &file = FILES[VALUES[value].file];
    return file.name + std::to_string((it.numbers[value] + above) % file.registers);
}

// An instruction of the kernel. In its stage all names are one higher for each stage that its iteration has behind it, and a source of d
// iterations ago is d names higher.
std::string written(const Schedule &it, std::size_t instruction) {
    const std::uint64_t stage = it.times[instruction] / it.interval;
    std::string line;
    for (std::size_t value = 0; value < VALUES.size(); value++)
        if (VALUES[value].maker == instruction) line += register_of(it, value, stage) + " ";
    line += "= " + described(instruction).name;
    for (const Operand &operand : LOOP[instruction].operands) line += " " + register_of(it, operand.value, operand.distance + stage);
    if (!LOOP[instruction].constant.empty()) line += " " + LOOP[instruction].constant;
    return line + " ?" + std::to_string(stage);
}

void print_kernel(const Schedule &it) {
    for (std::uint64_t row = 0; row < it.interval; row++) {
        std::string line = "row " + std::to_string(row) + ":", between = " ";
        for (std::size_t slot = 0; slot < SLOTS.size(); slot++) {
            for (std::size_t number = 0; number < LOOP.size(); number++) {
                if (it.times[number] % it.interval != row || described(number).slots[it.alternatives[number]] != slot) continue;
                line += between + SLOTS[slot] + " " + written(it, number);
                between = " | ";
            }
        }
        std::puts(line.c_str());
    }
}

// What has to be in registers before the first turn: the values of iterations before the first one that are read.
void print_before(const Schedule &it) {
    std::string line = "before:", between = " ";
    for (std::size_t value = 0; value < VALUES.size(); value++) {
        std::uint64_t farthest = 0;
        for (const Instruction &instruction : LOOP)
            for (const Operand &operand : instruction.operands)
                if (operand.value == value) farthest = std::max<std::uint64_t>(farthest, operand.distance);
        for (std::uint64_t ago = 1; ago <= farthest; ago++) {
            line += between + VALUES[value].name + "@" + std::to_string(ago) + " in " + register_of(it, value, ago);
            between = ", ";
        }
    }
    std::puts(line.c_str());
}

std::string in_cycles(std::uint64_t count) { return std::to_string(count) + (count == 1 ? " cycle" : " cycles"); }

// A verdict in the words of the back end.
std::string told(const modsched_verdict &it) {
    switch (it.kind) {
        case MODSCHED_BREAK_SLOT:
            return called(it.operation) + " takes " + SLOTS[it.unit] + " in row " + std::to_string(it.residue) + ", which " + called(it.earlier) + " has";
        case MODSCHED_BREAK_EDGE:
            return called(it.to) + " comes " + in_cycles(it.early) + " too early after " + called(it.from);
        case MODSCHED_BREAK_STAGE: return called(it.operation) + " is in stage 64 or later";
        case MODSCHED_BREAK_REGISTER:
            return VALUES[it.other].name + " and " + VALUES[it.value].name + " stand in one register of " + FILES[it.file].name + " in cycle "
                + std::to_string(it.cycle);
        default: return "a number is out of its range, kind " + std::to_string(it.kind);
    }
}

// Whether a wrong schedule is refused. It is printed why.
bool is_refused(const modsched_problem &problem, const Schedule &wrong, const std::string &what) {
    modsched_verdict verdict;
    const std::uint32_t status = check(problem, wrong, verdict);
    std::puts((what + ": " + (status == MODSCHED_BROKEN ? told(verdict) : "status " + std::to_string(status))).c_str());
    return status == MODSCHED_BROKEN;
}

} // namespace

int main() {
    const Problem problem;
    const modsched_problem given = problem.given();
    Schedule found;
    modsched_answer answer;
    const std::uint32_t status = modsched_solve(&given, 6, 64, found.times.data(), found.times.size(), found.alternatives.data(),
                                                found.alternatives.size(), found.numbers.data(), found.numbers.size(), &answer);
    if (status != MODSCHED_SOLVED) {
        std::printf("no schedule: status %u\n", static_cast<unsigned>(status));
        return 1;
    }
    found.interval = answer.interval, found.stages = answer.stages;
    std::printf("interval %u, stages %u; the slots ask for %u, recurrences for %u\n", static_cast<unsigned>(answer.interval),
                static_cast<unsigned>(answer.stages), static_cast<unsigned>(answer.resources), static_cast<unsigned>(answer.recurrences));
    print_before(found);
    print_kernel(found);

    modsched_verdict verdict;
    bool is_well = check(given, found, verdict) == MODSCHED_LAWFUL && verdict.stages == found.stages;
    for (std::size_t number = 0; number < LOOP.size(); number++) {
        if (found.times[number] == 0) continue;
        Schedule wrong = found;
        wrong.times[number]--;
        is_well &= is_refused(given, wrong, called(number) + " one cycle early");
    }
    Schedule wrong = found;
    wrong.numbers[Y]--;
    is_well &= is_refused(given, wrong, "y one register lower");
    return is_well ? 0 : 1;
}
