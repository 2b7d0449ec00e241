// The form of ebpf_host.hpp without exceptions: each call says by its result whether it did what it says. Compiled with -fno-exceptions, and
// linked with files of the other form.
#undef NDEBUG
#include <cassert>

#include "ebpf_host.hpp"
#include "programs.hpp"

#ifndef EBPF_HOST_RESULTS
#error "without exceptions, results are the default"
#endif

void without_exceptions();

namespace {

using ebpf::Machine, ebpf::Program, ebpf::Report, ebpf::Result, ebpf::Shared, ebpf::Totals, ebpf::Worker;

Result<Program> load(std::string_view digits, std::uint32_t context = 0, std::uint32_t held = 0) {
    return Program::load(slots_of(digits), {.context = context, .held = held});
}

void machines() {
    Result<Program> program = load(SEVEN);
    Result<Machine> machine = Machine::create(1);
    assert(program && machine && machine.has_value());
    Result<Report> report = machine->run(*program, {});
    assert(report && report->exit == 7 && (*report).exited);
    assert(machine->run(*program, ebpf::bytes_of(std::uint8_t{1})).error().status() == EBPF_CONTEXT);
    Report reports[3];
    assert(machine->run_batch(*program, {}, reports) && reports[2].exit == 7);
    Result<bool> replaced = machine->put(EBPF_CELL, {}), again = machine->put(EBPF_CELL, {}), found = machine->take(EBPF_CELL, {});
    assert(replaced && !*replaced && again && *again && found && *found && machine->reap() && machine->reap().has_value());
    Program moved = std::move(*program), shared = *moved.share();
    assert(moved && shared && !*program && machine->run(*program, {}).error().status() == EBPF_EMPTY && !program->share());
    Result<void> none = machine->run_batch(*program, {}, reports);
    assert(!none && !none.has_value() && none.error().status() == EBPF_EMPTY && none.error().done() == 0);
    Machine taken = *std::move(machine);
    assert(taken.run(moved, {}) && machine->reap().error().status() == EBPF_EMPTY && !machine->take(EBPF_CELL, {}));
}

void refusals() {
    Result<Program> program = load(READ, 3);
    assert(!program && !program.has_value() && program.error().status() == EBPF_REFUSED && program.error().code() == "V8" && program.error().slot() == 0);
    assert(program.error().sentence().starts_with("slot 0 reads 4 bytes"));
    ebpf::Error why = program.error();
    assert(std::string(why.what()) == "V8 at slot 0: " + std::string(why.sentence()));
    assert(load(READ, 4097).error().status() == EBPF_DECLARATION && Machine::create(0).error().status() == EBPF_PAGES);
    assert(ebpf::elf_functions({}).error().code() == "O1");
    assert(!Program::load_elf({}, "name", {}) && !Program::load_unrolled({}, {}) && !Program::load_elf_unrolled({}, {}, {}));
}

void workers() {
    Result<Shared> shared = Shared::create(1, 1);
    Result<Worker> worker = shared->open();
    assert(shared && worker && shared->open().error().status() == EBPF_BUSY && shared->close().error().status() == EBPF_BUSY);
    assert(worker->run(*load(CELL, 0, 1), {})->exit == 5 && *shared->reap() <= 1);
    worker->reset();
    Result<Totals> totals = shared->close();
    assert(totals && totals->kinds[EBPF_CELL].allocs == 1 && !*shared && shared->close().error().status() == EBPF_EMPTY);
    assert(Shared::create(1, 65).error().status() == EBPF_WORKERS);
}

} // namespace

void without_exceptions() {
    machines();
    refusals();
    workers();
}
