// Each class of ebpf_host.hpp with each status as an exception: what bytes are refused for, handles that are empty, moved and reset, runs,
// batches, objects on shelves, threads, loads without end, and each allocation of the library refused in turn: malloc and realloc are those
// below, by the linker's --wrap. tests/results.cpp has the form without exceptions.
//
//     tests TWO LOOP LOADS    TWO is tests/objects/two.o, LOOP is bindings/loop.o, LOADS how often a program is loaded and freed
#undef NDEBUG
#include <atomic>
#include <cassert>
#include <cstdio>
#include <cstdlib>
#include <cstring>
#include <fstream>
#include <functional>
#include <iterator>
#include <thread>

#include "ebpf_host.hpp"
#include "programs.hpp"

void without_exceptions(); // of results.cpp

extern "C" {
void *__real_malloc(std::size_t size);
void *__real_realloc(void *old, std::size_t size);
void *__wrap_malloc(std::size_t size);
void *__wrap_realloc(void *old, std::size_t size);
}

namespace {

thread_local long left = -1;       // how many allocations of this thread are still served; below zero, all
thread_local bool refused = false; // whether one was refused

bool serves() {
    if (left < 0) return true;
    if (left > 0) return left--, true;
    refused = true;
    return false;
}

} // namespace

void *__wrap_malloc(std::size_t size) { return serves() ? __real_malloc(size) : nullptr; }
void *__wrap_realloc(void *old, std::size_t size) { return serves() ? __real_realloc(old, size) : nullptr; }

namespace {

using ebpf::Machine, ebpf::Program, ebpf::Report, ebpf::Shared, ebpf::Totals, ebpf::Worker;

template <class T> constexpr bool has_one_owner = !std::is_copy_constructible_v<T> && !std::is_copy_assignable_v<T> &&
    std::is_nothrow_move_constructible_v<T> && std::is_nothrow_move_assignable_v<T> && sizeof(T) == sizeof(void *);
static_assert(has_one_owner<Program> && has_one_owner<Machine> && has_one_owner<Shared> && has_one_owner<Worker>);
static_assert(ebpf::Plain<int[3]> && !ebpf::Plain<const char *> && !ebpf::Plain<std::string_view> && !ebpf::Plain<std::string>);
static_assert(std::is_nothrow_copy_constructible_v<ebpf::Error> && std::is_nothrow_copy_constructible_v<ebpf::Refused>);

Program load(std::string_view digits, std::uint32_t context = 0, std::uint32_t held = 0) {
    return Program::load(slots_of(digits), {.context = context, .held = held});
}

// The status with which a call fails, or EBPF_DONE.
ebpf_status status_of(const std::function<void()> &call) {
    try {
        call();
    } catch (const ebpf::Error &why) {
        assert(why.status() == EBPF_REFUSED ? !why.sentence().empty() : why.sentence().empty() && why.code().empty() && why.slot() == 0);
        assert(why.status() == EBPF_REFUSED || !std::strcmp(why.what(), ebpf_status_text(why.status())));
        return why.status();
    }
    return EBPF_DONE;
}

std::vector<std::uint8_t> read_file(const char *path) {
    std::ifstream file(path, std::ios::binary);
    assert(file);
    return {std::istreambuf_iterator<char>(file), {}};
}

// Why a call is refused.
ebpf::Refused refusal_of(const std::function<Program()> &call) {
    try {
        call();
    } catch (const ebpf::Refused &why) {
        return why;
    }
    std::abort();
}

void refusals(const char *path) {
    ebpf::Refused why = refusal_of([] { return load(READ, 3); });
    assert(why.status() == EBPF_REFUSED && why.code() == "V8" && why.slot() == 0 && why.lines().empty() && why.done() == 0);
    assert(why.sentence().starts_with("slot 0 reads 4 bytes at [r1+0]") && !why.sentence().ends_with('\n'));
    assert(why.what() == "V8 at slot 0: " + std::string(why.sentence()));
    ebpf::Error copy = why;
    assert(copy.code() == "V8" && copy.what() == why.what());
    assert(refusal_of([] { return Program::load({}, {}); }).code() == "I1");
    assert(refusal_of([] { return Program::load_elf({}, {}, {}); }).code() == "O1");
    assert(refusal_of([] { return Program::load_unrolled({}, {}); }).code() == "I1");
    assert(refusal_of([] { return Program::load_elf_unrolled({}, {}, {}); }).code() == "O1");
    assert(refusal_of([] { return load(LOOP); }).code() == "F3");
    std::vector<std::uint8_t> file = read_file(path);
    why = refusal_of([&] { return Program::load_elf(file, "largest", {.context = 15}); });
    assert(why.code() == "V8" && why.slot() == 7 && why.sentence().starts_with("slot 7 reads 4 bytes"));
    assert(why.lines() == "  ./two.c:14:7: if (words[i] > most)\n");
    assert(refusal_of([&] { return Program::load_elf(file, {}, {.context = 16}); }).code() == "O3");
    why = refusal_of([&] { return Program::load_elf_unrolled(file, "larges", {.context = 16}); });
    assert(why.code() == "O2" && why.sentence() == "the file has no function of that name; it has checksum, largest");
}

// The functions of a file, each with a name by which it is loaded, and of none.
void lists(const char *path) {
    std::vector<std::uint8_t> file = read_file(path);
    std::vector<ebpf::Function> functions = ebpf::elf_functions(file);
    assert(functions.size() == 2 && functions[0].name == std::string_view("checksum") && functions[1].name == std::string_view("largest"));
    assert(functions[0].section == std::string_view(".text") && functions[0].slots == 8 && functions[1].slots == 11);
    for (const ebpf::Function &it : functions) assert(Program::load_elf(file, it.name, {.context = 16}).slots() == it.slots);
    file[980] = file[1004] = 0x10; // neither is a function any more
    assert(ebpf::elf_functions(file).empty());
    ebpf::Refused why = refusal_of([] { return (void)ebpf::elf_functions({}), Program(); });
    assert(why.code() == "O1" && why.sentence() == "the file has fewer than the 64 bytes of an ELF header");
}

// What a program is, as it was declared and as it is run.
void is_about() {
    const Program program = load(READ, 4, 3);
    assert(program.context() == 4 && program.held() == 3 && program.slots() == 2);
    const Program none;
    assert(none.context() == 0 && none.held() == 0 && none.slots() == 0);
    assert(ebpf::version() == EBPF_HOST_VERSION);
}

// Contexts that are shorter than was declared, and one that is longer.
void is_padded() {
    const Program program = load(READ, 4, 0);
    const std::vector<std::uint8_t> bytes = {1, 2, 3, 4, 5};
    Machine machine = Machine::create(1);
    Shared shared = Shared::create(1, 1);
    Worker worker = shared.open();
    const std::uint64_t exits[] = {0, 1, 0x201, 0x30201, 0x4030201};
    for (std::size_t length = 0; length < 5; length++) {
        ebpf::Bytes context(bytes.data(), length);
        assert(machine.run_padded(program, context).exit == exits[length] && worker.run_padded(program, context).exit == exits[length]);
    }
    assert(status_of([&] { machine.run_padded(program, bytes); }) == EBPF_CONTEXT);
}

// A slot without a number, as hex.
std::string slot(int code, int registers, int offset) {
    char digits[17];
    std::snprintf(digits, sizeof digits, "%02x%02x%02x%02x00000000", code, registers, offset & 0xff, offset >> 8 & 0xff);
    return digits;
}

// A loop that can't be unrolled, with many branches that lead out of it: each is a line of a text that is longer than the first buffer.
void a_long_text() {
    constexpr int branches = 40;
    std::string digits = slot(0xb7, 0, 0); // r0 = 0
    for (int i = 0; i < branches; i++) {
        digits += slot(0x71, 0x12, 0) + slot(0x15, 2, 2 * (branches - i) - 1); // r2 = *(u8 *)r1; if r2 == 0 goto exit
    }
    digits += slot(0x05, 0, -2 * branches - 1) + slot(0x95, 0, 0); // goto 1; exit
    ebpf::Refused why = refusal_of([&] { return Program::load_unrolled(slots_of(digits), {.context = 1}); });
    assert(why.code() == "F3" && why.slot() == 2 * branches + 1 && why.lines().size() > 1024 && why.lines().ends_with('\n'));
    assert(std::count(why.lines().begin(), why.lines().end(), '\n') == branches);
}

void loads(const char *path, const char *loop_path) {
    std::vector<std::uint8_t> file = read_file(path), loop = read_file(loop_path);
    const std::uint32_t numbers[] = {1, 5, 3, 4};
    Machine machine = Machine::create(1);
    for (bool is_unrolled : {false, true}) {
        auto by_name = is_unrolled ? Program::load_elf_unrolled : Program::load_elf;
        auto by_slots = is_unrolled ? Program::load_unrolled : Program::load;
        assert(machine.run(by_name(file, "checksum", {.context = 16}), ebpf::bytes_of(numbers)).exit == 13);
        assert(machine.run(by_name(file, "largest", {.context = 16, .held = 64}), ebpf::bytes_of(numbers)).exit == 5);
        assert(machine.run(by_slots(slots_of(CELL), {.held = 1}), {}).exit == 5);
        assert(status_of([&] { (void)by_name(file, "largest", {.context = 4097}); }) == EBPF_DECLARATION);
        assert(status_of([&] { (void)by_slots(slots_of(READ), {.context = 4097}); }) == EBPF_DECLARATION);
        assert(status_of([&] { (void)by_slots(slots_of(READ), {.context = 4, .held = 65}); }) == EBPF_DECLARATION);
    }
    const std::uint8_t byte = 0xb5;
    assert(machine.run(Program::load_unrolled(slots_of(LOOP), {}), {}).exit == 6);
    assert(machine.run(Program::load_elf_unrolled(loop, "bits", {.context = 1}), ebpf::bytes_of(byte)).exit == 5);
    assert(refusal_of([&] { return Program::load_elf(loop, {}, {.context = 1}); }).code() == "F3");
}

// Every call by what runs programs and holds nothing.
template <class Runner> void runs_nothing(Runner &empty, const Program &program) {
    std::uint8_t there[16] = {};
    Report reports[2];
    assert(!empty && status_of([&] { empty.run(program, {}); }) == EBPF_EMPTY);
    assert(status_of([&] { empty.run_batch(program, {}, reports); }) == EBPF_EMPTY);
    assert(status_of([&] { empty.put(EBPF_CELL, there); }) == EBPF_EMPTY);
    assert(status_of([&] { (void)empty.take(EBPF_CELL, there); }) == EBPF_EMPTY);
    empty.reset();
}

// Every call on handles that hold nothing.
void does_nothing(Program &none, Machine &machine, Shared &shared, Worker &worker) {
    Program program = load(SEVEN);
    Machine whole = Machine::create(1);
    runs_nothing(machine, program), runs_nothing(machine, none), runs_nothing(worker, program);
    assert(!none && status_of([&] { whole.run(none, {}); }) == EBPF_EMPTY && status_of([&] { (void)none.share(); }) == EBPF_EMPTY);
    assert(!shared && status_of([&] { (void)shared.open(); }) == EBPF_EMPTY && status_of([&] { shared.reap(); }) == EBPF_EMPTY);
    assert(status_of([&] { machine.reap(); }) == EBPF_EMPTY && status_of([&] { (void)shared.close(); }) == EBPF_EMPTY);
    none.reset(), shared.reset();
}

// Handles that are made by default, that were moved from, and that were reset.
void empty_handles() {
    Program program;
    Machine machine;
    Shared shared;
    Worker worker;
    does_nothing(program, machine, shared, worker);
    program = load(SEVEN), machine = Machine::create(1), shared = Shared::create(1, 1), worker = shared.open();
    Program program_now = std::move(program);
    Machine machine_now = std::move(machine);
    Shared shared_now = std::move(shared);
    Worker worker_now = std::move(worker);
    does_nothing(program, machine, shared, worker);
    assert(machine_now.run(program_now, {}).exit == 7 && worker_now.run(program_now, {}).exit == 7 && shared_now.reap() == 0);
    program_now.reset(), machine_now.reset(), worker_now.reset(), shared_now.reset();
    does_nothing(program_now, machine_now, shared_now, worker_now);
}

// A move leaves an empty handle and frees what the other held; a move to itself changes nothing.
void moves() {
    Machine machine = Machine::create(1);
    Program program = load(SEVEN), other = std::move(program), shared = other.share();
    assert(!program && other && machine.run(other, {}).exit == 7 && status_of([&] { machine.run(program, {}); }) == EBPF_EMPTY);
    Program &self = other;
    other = std::move(self);
    assert(other && machine.run(other, {}).exit == 7);
    other = load(CELL, 0, 1);
    assert(machine.run(other, {}).exit == 5 && machine.run(shared, {}).exit == 7);
    other = Program();
    assert(!other && status_of([&] { other = load(READ, 3); }) == EBPF_REFUSED && !other);
    machine = Machine::create(2);
    assert(machine.run(shared, {}).exit == 7);
    shared.reset();
    assert(status_of([&] { machine.run(shared, {}); }) == EBPF_EMPTY);
}

void ranges() {
    assert(status_of([] { (void)Machine::create(0); }) == EBPF_PAGES && status_of([] { (void)Machine::create(257); }) == EBPF_PAGES);
    assert(status_of([] { (void)Shared::create(0, 1); }) == EBPF_PAGES && status_of([] { (void)Shared::create(257, 1); }) == EBPF_PAGES);
    assert(status_of([] { (void)Shared::create(1, 0); }) == EBPF_WORKERS && status_of([] { (void)Shared::create(1, 65); }) == EBPF_WORKERS);
}

// Runs, with the same answers by a machine and by a worker.
template <class Runner> void runs(Runner &runner) {
    Program emit = load(EMIT, 1), cell = load(CELL, 0, 1);
    std::uint8_t context[2] = {42, 0};
    std::uint64_t output[2] = {0, 9};
    Report report = runner.run(emit, {context, 1}, ebpf::no_limit, output);
    assert(report.exited && report.exit == 7 && report.executed == 4 && report.outputs == 1 && output[0] == 42 && output[1] == 9);
    report = runner.run(emit, {context, 1});
    assert(report.exit == 7 && report.outputs == 1);
    report = runner.run(emit, {context, 1}, 3);
    assert(!report.exited && report.exit == 0 && report.executed == 3);
    assert(status_of([&] { runner.run(emit, {}); }) == EBPF_CONTEXT && status_of([&] { runner.run(emit, context); }) == EBPF_CONTEXT);
    assert(status_of([&] { runner.run(cell, context); }) == EBPF_CONTEXT);
    report = runner.run(cell, {});
    assert(report.exit == 5 && report.peak == 1 && report.granted == 1 && report.refused == 0 && report.fetched == 0 && report.missed == 0);
}

template <class Runner> void batches(Runner &runner) {
    Program read = load(READ, 4), cell = load(CELL, 0, 1);
    const std::uint32_t numbers[] = {1000, 1001, 1004};
    Report reports[3];
    runner.run_batch(read, ebpf::bytes_of(std::span(numbers)), reports);
    for (int i = 0; i < 3; i++) assert(reports[i].exited && reports[i].exit == numbers[i] && reports[i].executed == 2);
    runner.run_batch(read, ebpf::bytes_of(numbers), reports, 1);
    assert(!reports[0].exited && reports[2].executed == 1);
    runner.run_batch(cell, {}, reports);
    assert(reports[0].exit == 5 && reports[2].granted == 1);
    runner.run_batch(read, {}, {});
    assert(status_of([&] { runner.run_batch(read, ebpf::bytes_of(numbers), {reports, 2}); }) == EBPF_CONTEXT);
    assert(status_of([&] { runner.run_batch(read, {}, reports); }) == EBPF_CONTEXT);
    assert(reports[2].exit == 5);
}

struct Settings {
    std::uint32_t least, most;
    std::uint64_t numbers[7];
};

template <class Runner> void shelves(Runner &runner) {
    Program fetch = load(FETCH, 0, 1), leave = load(LEAVE, 1, 1);
    Settings settings = {3, 5, {1}}, found = {};
    std::uint8_t bytes[513] = {};
    static_assert(sizeof settings == 64);
    assert(!runner.take(EBPF_RECORD, ebpf::room_of(found)) && found.most == 0);
    assert(!runner.put(EBPF_RECORD, ebpf::bytes_of(settings)) && runner.put(EBPF_RECORD, ebpf::bytes_of(std::string_view("one"))));
    assert(runner.take(EBPF_RECORD, ebpf::room_of(found)) && !std::memcmp(&found, "one\xff\xff", 5));
    assert(!runner.put(EBPF_RECORD, ebpf::bytes_of(settings)) && runner.take(EBPF_RECORD, ebpf::room_of(found)));
    assert(!std::memcmp(&settings, &found, sizeof found));
    assert(!runner.put(EBPF_RECORD, {}) && runner.take(EBPF_RECORD, {}));
    assert(runner.run(leave, ebpf::bytes_of(std::string_view("a"))).missed == 1);
    assert(runner.run(fetch, {}).fetched == 1 && runner.run(fetch, {}).missed == 1);
    assert(status_of([&] { runner.put(3, {}); }) == EBPF_KIND && status_of([&] { (void)runner.take(3, {}); }) == EBPF_KIND);
    assert(status_of([&] { runner.put(EBPF_CELL, {bytes, 17}); }) == EBPF_LENGTH);
    assert(status_of([&] { runner.put(EBPF_RECORD, {bytes, 65}); }) == EBPF_LENGTH);
    assert(status_of([&] { runner.put(EBPF_BLOCK, bytes); }) == EBPF_LENGTH);
    assert(!runner.put(EBPF_RECORD, {bytes, 64}));
    assert(status_of([&] { runner.put(EBPF_CELL, {}); }) == EBPF_NO_OBJECT); // the one page has records
}

void machines() {
    Machine machine = Machine::create(2), small = Machine::create(1);
    runs(machine), batches(machine), shelves(small);
    assert(small.take(EBPF_RECORD, {}));
    small.reap();
    assert(!small.put(EBPF_CELL, {}));
}

// Workers that are opened, closed and too many; totals; a worker that outlives what it shares.
void workers() {
    Shared shared = Shared::create(2, 2);
    Worker one = shared.open(), other = shared.open();
    assert(status_of([&] { (void)shared.open(); }) == EBPF_BUSY && status_of([&] { (void)shared.close(); }) == EBPF_BUSY);
    runs(one), batches(other), other.reset();
    assert(!other && (other = shared.open()) && shared.reap() <= 2);
    assert(status_of([&] { (void)shared.close(); }) == EBPF_BUSY && shared);
    one.reset(), other = Worker();
    Totals totals = shared.close();
    assert(!shared && totals.kinds[EBPF_CELL].allocs == 4 && totals.kinds[EBPF_CELL].frees == 4 && !totals.kinds[EBPF_CELL].missing);
    shared = Shared::create(1, 1), one = shared.open(), shelves(one);
    shared.reset();
    assert(status_of([&] { (void)shared.open(); }) == EBPF_EMPTY && one.run(load(SEVEN), {}).exit == 7);
}

// What the runs of all threads were granted and refused of a kind, and found on its shelf.
struct Sums {
    std::atomic<std::uint64_t> granted = 0, refused = 0, gets = 0;

    void add(const Report &report) { granted += report.granted, refused += report.refused, gets += report.fetched; }
};

constexpr int THREADS = 8, TURNS = 500, BATCH = 16;

// A thread: runs of a program that takes a cell and gives it back, and of one that exchanges records.
void work(Worker worker, const Program &cell, const Program &leave, Sums (&sums)[2]) {
    Report reports[BATCH];
    for (int i = 0; i < TURNS; i++) {
        worker.run_batch(cell, {}, reports);
        std::for_each(std::begin(reports), std::end(reports), [&](const Report &report) { sums[EBPF_CELL].add(report); });
        std::uint8_t byte = static_cast<std::uint8_t>(i);
        Report report = worker.run(leave, {&byte, 1});
        assert(report.exited && report.fetched + report.missed == report.granted);
        sums[EBPF_RECORD].add(report);
    }
}

// Totals of a kind are what the reports of all threads say. A worker that meets others at the slabs for too long is refused an object, which
// depends on time.
void agree(const ebpf_kind_totals &of, const Sums &sums) {
    assert(of.allocs == sums.granted && of.nulls + of.busy == sums.refused && of.allocs > 0);
    assert(of.frees == of.allocs && !of.missing && !of.foreign && of.puts == of.gets + of.left && of.gets == sums.gets);
}

void threads() {
    const Program cell = load(CELL, 0, 1), leave = load(LEAVE, 1, 1);
    Shared shared = Shared::create(16, THREADS);
    Sums sums[2];
    {
        std::vector<std::jthread> all;
        for (int i = 0; i < THREADS; i++) all.emplace_back(work, shared.open(), std::cref(cell), std::cref(leave), std::ref(sums));
    }
    Totals totals = shared.close();
    agree(totals.kinds[EBPF_CELL], sums[EBPF_CELL]), agree(totals.kinds[EBPF_RECORD], sums[EBPF_RECORD]);
    assert(sums[EBPF_CELL].granted + sums[EBPF_CELL].refused == THREADS * TURNS * BATCH);
    assert(totals.kinds[EBPF_RECORD].puts == sums[EBPF_RECORD].granted && !totals.clashes && !totals.strays);
}

// The pages of memory that this process has.
long resident() {
    long size = 0, pages = 0;
    std::ifstream("/proc/self/statm") >> size >> pages;
    return pages;
}

// Loads and frees, some of which fail, at constant memory.
void many_loads(long count) {
    Machine machine = Machine::create(1);
    long before = 0;
    for (long i = 0; i < count; i++) {
        Program program = load(SEVEN), shared = program.share();
        program.reset();
        if (i % 10 == 0) assert(status_of([] { (void)load(READ, 3); }) == EBPF_REFUSED && machine.run(shared, {}).exit == 7);
        if (i == count / 10) before = resident();
    }
    assert(resident() <= before + 16 || count < 100000);
}

// A call with that many allocations served: it does what it says, or fails with want of memory.
bool does(long allocations, const std::function<void()> &call) {
    left = allocations;
    try {
        call();
    } catch (const ebpf::Error &why) {
        left = -1;
        assert(refused && (why.status() == EBPF_NO_MEMORY || why.status() == EBPF_NO_OBJECT) && why.done() < 2);
        return false;
    }
    left = -1;
    return true;
}

// The calls that allocate, each with that many allocations served: one that fails changes nothing. Whether one failed.
bool served(long allocations, const std::vector<std::uint8_t> &slots) {
    Program program, second;
    Machine machine;
    Shared shared;
    Worker worker;
    Report reports[2];
    refused = false;
    does(allocations, [] { assert(status_of([] { (void)ebpf::elf_functions({}); }) == (refused ? EBPF_NO_MEMORY : EBPF_REFUSED)); });
    assert(does(allocations, [&] { program = Program::load(slots, {.held = 1}); }) == !!program);
    if (!program) program = Program::load(slots, {.held = 1});
    assert(does(allocations, [&] { second = program.share(); }) == !!second);
    assert(does(allocations, [&] { machine = Machine::create(1); }) == !!machine);
    assert(does(allocations, [&] { shared = Shared::create(2, 1); }) == !!shared);
    assert(!shared || does(allocations, [&] { worker = shared.open(); }) == !!worker);
    if (machine) does(allocations, [&] { machine.run(program, {}); }), does(allocations, [&] { machine.run_batch(program, {}, reports); });
    if (worker) does(allocations, [&] { worker.run(program, {}); }), does(allocations, [&] { worker.put(EBPF_RECORD, {}); });
    assert(!machine || machine.run(program, {}).exit == 5);
    return refused;
}

// A program of so many instructions that runs of a batch go on four together, in memory of their own.
Program load_long() {
    std::string digits = "b700000000000000"; // r0 = 0
    for (int i = 0; i < 2200; i++) digits += "0700000001000000"; // r0 += 1
    return load(digits + "9500000000000000");
}

// A batch in which a run finds no memory says how many were run before it, and a batch of the rest goes on. How many were run; 9 if it was
// not refused an allocation.
std::size_t batch_served(long allocations, const Program &program) {
    constexpr std::size_t runs = 5;
    Machine machine = Machine::create(1);
    Report reports[runs] = {};
    std::size_t done = runs;
    refused = false, left = allocations;
    try {
        machine.run_batch(program, {}, reports);
    } catch (const ebpf::Error &why) {
        left = -1;
        assert(refused && why.status() == EBPF_NO_MEMORY && why.done() < runs);
        done = why.done();
    }
    left = -1;
    for (std::size_t i = 0; i < runs; i++) assert(reports[i].exited == (i < done));
    machine.run_batch(program, {}, std::span(reports).subspan(done));
    assert(reports[runs - 1].exit == 2200);
    return refused ? done : 9;
}

void batches_without_memory() {
    const Program program = load_long();
    std::size_t done = 0, each = 0;
    for (long allocations = 0; done != 9; allocations++) done = batch_served(allocations, program), each |= std::size_t{1} << done;
    assert(each == (1 << 0 | 1 << 4 | 1 << 9)); // none were run, four, and all
}

} // namespace

int main(int count, char **words) {
    assert(count == 4);
    refusals(words[1]);
    lists(words[1]);
    is_about();
    is_padded();
    a_long_text();
    loads(words[1], words[2]);
    empty_handles();
    moves();
    ranges();
    machines();
    workers();
    threads();
    many_loads(std::atol(words[3]));
    long allocations = 0;
    while (served(allocations, slots_of(CELL))) allocations++;
    assert(allocations > 10);
    batches_without_memory();
    without_exceptions();
    return 0;
}
