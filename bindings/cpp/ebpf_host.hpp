// The library of ebpf_host.h for C++20: handles that free themselves, spans, and errors that can't be overlooked.
//
//     ebpf::Program program = ebpf::Program::load(slots, {.context = 24});
//     ebpf::Machine machine = ebpf::Machine::create(16);
//     ebpf::Report report = machine.run(program, packet);
//
// Numbers and structs are those of ebpf_host.h: kinds as EBPF_RECORD, statuses as EBPF_BUSY, functions, reports and totals. What a function does is
// said there too, at the C function of its name; the comments here say what differs. Everything is inline, so there is nothing to link but
// the C library.
//
// Handles. Each class holds one word, as in C, and can be moved but not copied. A handle that was moved from, reset or made by default is
// empty: every call on it fails with EBPF_EMPTY, and passing an empty program to a run does too. Nothing here is undefined for an empty one.
//
// Threads. A function that is const may be called by any number of threads at once, and so may a run with the `const Program &` that it
// takes. Any other function is one call at a time, as in C. A handle may go to another thread by a move.
//
// Errors. A call that fails throws an Error, or a Refused if bytes are refused, and changes nothing, but for the runs of a batch before one that
// finds no memory. Compile with -fno-exceptions, or define EBPF_HOST_RESULTS before this header, and each call that may fail returns a Result<T>
// in place of T: a subset of std::expected. The two forms are in namespaces of their own, so one program may have files of both.
//
// Memory. The library's own comes from malloc, and where there is none a call fails with EBPF_NO_MEMORY. Loads also use a std::string for the text
// of a refusal: where there is none for that, std::bad_alloc is thrown.
#ifndef EBPF_HOST_HPP
#define EBPF_HOST_HPP

#include <algorithm>
#include <cstddef>
#include <cstdint>
#include <exception>
#include <memory>
#include <ranges>
#include <span>
#include <string>
#include <string_view>
#include <type_traits>
#include <utility>
#include <variant>
#include <vector>

#include <ebpf_host.h>

#if !defined(EBPF_HOST_RESULTS) && !defined(__cpp_exceptions)
#define EBPF_HOST_RESULTS
#endif

namespace ebpf {

// What a run did.
using Report = ebpf_report;
// A function of an object file, as a list has it.
using Function = ebpf_function;
// What all workers did, by the numbers of the kinds.
using Totals = ebpf_totals;
// Bytes that are only read: slots, an object file, contexts, the bytes of an object. Empty ones may have a null pointer.
using Bytes = std::span<const std::uint8_t>;
// Bytes that a call writes.
using Room = std::span<std::uint8_t>;

// A limit that no run reaches, since no program does more instructions. Under it no run is given up, and nothing on a shelf is lost.
inline constexpr std::uint64_t no_limit = 4096;

// The version of the library that is linked, as "0.1.0".
[[nodiscard]] inline std::string_view version() noexcept { return ebpf_host_version(); }

// What is its bytes: no pointer, and no view of other bytes.
template <class T>
concept Plain = std::is_trivially_copyable_v<T> && !std::is_pointer_v<T> && !std::ranges::view<T>;

// The bytes of a value, as for a context or for an object on a shelf, with its padding. Of a text in quotes they have the zero too.
template <Plain T> Bytes bytes_of(const T &value) noexcept { return {reinterpret_cast<const std::uint8_t *>(&value), sizeof value}; }

// The bytes of what a view views, as a std::string_view or a std::span.
template <std::ranges::view View>
    requires std::ranges::contiguous_range<View> && std::ranges::sized_range<View>
Bytes bytes_of(View view) noexcept {
    return {reinterpret_cast<const std::uint8_t *>(view.data()), view.size() * sizeof(*view.data())};
}

// The bytes of a value that a call may write. If it writes fewer than all, the rest stays as it is.
template <Plain T> Room room_of(T &value) noexcept { return {reinterpret_cast<std::uint8_t *>(&value), sizeof value}; }

#ifdef EBPF_HOST_RESULTS
inline namespace with_results {
#else
inline namespace with_exceptions {
#endif

// Why a call failed. To copy it allocates nothing, so it throws nothing.
class Error : public std::exception {
public:
    // An error of any status but a refusal.
    explicit Error(ebpf_status status, std::size_t done = 0) noexcept : status_(status), done_(done) {}
    // A refusal, with what a load wrote as its text.
    Error(const ebpf_refusal &refusal, std::string_view text) : status_(EBPF_REFUSED), refusal_(refusal), words_(words_of(refusal, text)) {}

    // The status that the C function returned.
    ebpf_status status() const noexcept { return status_; }
    // How many runs of a batch were done before one found no memory; 0 for all other calls.
    std::size_t done() const noexcept { return done_; }
    // The code of a refusal, as "V8"; empty if the status is another.
    std::string_view code() const noexcept { return refusal_.code; }
    // The slot at fault; 0 also if the status is another.
    std::uint32_t slot() const noexcept { return refusal_.slot; }
    // Why bytes are refused, without an indent and without an end of line; empty if the status is another.
    std::string_view sentence() const noexcept { return words_ ? std::string_view(words_->sentence) : std::string_view(); }
    // The lines after the sentence, each as the C text has it: what branches of a loop compare, and the line of C. There may be none.
    std::string_view lines() const noexcept { return words_ ? std::string_view(words_->lines) : std::string_view(); }
    // All of a refusal in one line, as "V8 at slot 0: slot 0 reads 4 bytes ..."; otherwise the status in words.
    const char *what() const noexcept override { return words_ ? words_->all.c_str() : ebpf_status_text(status_); }

private:
    struct Words {
        std::string sentence, lines, all;
    };

    static std::shared_ptr<const Words> words_of(const ebpf_refusal &refusal, std::string_view text) {
        std::size_t end = std::min(text.find('\n'), text.size());
        std::string_view first = text.substr(0, end), rest = text.substr(std::min(end + 1, text.size()));
        first.remove_prefix(std::min(first.find_first_not_of(' '), first.size()));
        Words words{std::string(first), std::string(rest), std::string(refusal.code)};
        words.all += " at slot " + std::to_string(refusal.slot) + ": " + words.sentence;
        return std::make_shared<const Words>(std::move(words));
    }

    ebpf_status status_;
    ebpf_refusal refusal_ = {};
    std::size_t done_ = 0;
    std::shared_ptr<const Words> words_; // only of a refusal
};

// The error of bytes that are refused, as a type of its own to catch. It adds nothing to an Error.
class Refused : public Error {
    using Error::Error;
};

#ifdef EBPF_HOST_RESULTS

// A value, or why there is none. Access to what isn't there ends the process, or throws std::bad_variant_access if there are exceptions.
template <class T> class [[nodiscard]] Result {
public:
    // A value.
    Result(T value) : held_(std::in_place_index<0>, std::move(value)) {}
    // No value, and why.
    Result(Error error) : held_(std::in_place_index<1>, std::move(error)) {}

    // Whether there is a value. Of a Result<bool> too it is this that `if` tests, and not the value.
    explicit operator bool() const noexcept { return held_.index() == 0; }
    bool has_value() const noexcept { return held_.index() == 0; }
    // The value.
    T &operator*() & { return std::get<0>(held_); }
    const T &operator*() const & { return std::get<0>(held_); }
    T &&operator*() && { return std::get<0>(std::move(held_)); }
    T *operator->() { return &std::get<0>(held_); }
    const T *operator->() const { return &std::get<0>(held_); }
    // Why there is none.
    const Error &error() const { return std::get<1>(held_); }

private:
    std::variant<T, Error> held_;
};

// Of a call that gives no value: whether it did what it says.
template <> class [[nodiscard]] Result<void> {
public:
    // It did.
    Result() = default;
    // It did nothing, and why.
    Result(Error error) : held_(std::move(error)) {}

    // Whether it did.
    explicit operator bool() const noexcept { return held_.index() == 0; }
    bool has_value() const noexcept { return held_.index() == 0; }
    // Why it did nothing.
    const Error &error() const { return std::get<1>(held_); }

private:
    std::variant<std::monostate, Error> held_;
};

#define EBPF_HOST_FAIL return
#else
template <class T> using Result = T;
#define EBPF_HOST_FAIL throw
#endif

class Program;
class Worker;

namespace detail {

// The functions of C by the type of their handle.
inline void release(ebpf_program *it) noexcept { ebpf_program_free(it); }
inline void release(ebpf_machine *it) noexcept { ebpf_machine_free(it); }
inline void release(ebpf_shared *it) noexcept { ebpf_shared_free(it); }
inline void release(ebpf_worker *it) noexcept { ebpf_worker_close(it); }

template <class... Rest> ebpf_status run(ebpf_machine *it, Rest... rest) { return ebpf_machine_run(it, rest...); }
template <class... Rest> ebpf_status run(ebpf_worker *it, Rest... rest) { return ebpf_worker_run(it, rest...); }
template <class... Rest> ebpf_status run_padded(ebpf_machine *it, Rest... rest) { return ebpf_machine_run_padded(it, rest...); }
template <class... Rest> ebpf_status run_padded(ebpf_worker *it, Rest... rest) { return ebpf_worker_run_padded(it, rest...); }
template <class... Rest> ebpf_status run_batch(ebpf_machine *it, Rest... rest) { return ebpf_machine_run_batch(it, rest...); }
template <class... Rest> ebpf_status run_batch(ebpf_worker *it, Rest... rest) { return ebpf_worker_run_batch(it, rest...); }
template <class... Rest> ebpf_status put(ebpf_machine *it, Rest... rest) { return ebpf_machine_put(it, rest...); }
template <class... Rest> ebpf_status put(ebpf_worker *it, Rest... rest) { return ebpf_worker_put(it, rest...); }
template <class... Rest> ebpf_status take(ebpf_machine *it, Rest... rest) { return ebpf_machine_take(it, rest...); }
template <class... Rest> ebpf_status take(ebpf_worker *it, Rest... rest) { return ebpf_worker_take(it, rest...); }

// A handle that has one owner. A move takes the word, and leaves zero.
template <class Raw> class Handle {
public:
    Handle() noexcept = default;
    Handle(Handle &&other) noexcept { std::swap(raw_.word, other.raw_.word); }
    Handle &operator=(Handle &&other) noexcept {
        Handle old(std::move(other));
        std::swap(raw_.word, old.raw_.word);
        return *this;
    }
    ~Handle() { release(&raw_); }

    // Whether it holds something.
    explicit operator bool() const noexcept { return raw_.word != nullptr; }
    // Frees what it holds now, rather than at the end of its life. A worker is closed by this.
    void reset() noexcept { release(&raw_); }
    // The handle of C, for calls of C. It stays the owner of what it holds.
    Raw *get() noexcept { return &raw_; }
    const Raw *get() const noexcept { return &raw_; }

private:
    Raw raw_ = {};
};

// What runs programs, a machine or a worker.
template <class Raw> class Runner : public Handle<Raw> {
public:
    // Runs a program. With a limit below no_limit a run may be given up, and what it had taken off a shelf is lost. The numbers that
    // it emits are written as far as there is room: report.outputs may be more than output.size().
    Result<Report> run(const Program &program, Bytes context, std::uint64_t limit = no_limit, std::span<std::uint64_t> output = {});

    // Runs a program on a context that may be shorter than was declared: zeros come after its bytes.
    Result<Report> run_padded(const Program &program, Bytes context, std::uint64_t limit = no_limit, std::span<std::uint64_t> output = {});

    // Runs a program on reports.size() contexts, which are one after another in `contexts`. If a run finds no memory, the error says by
    // done() how many were run before it, and their reports are written.
    Result<void> run_batch(const Program &program, Bytes contexts, std::span<Report> reports, std::uint64_t limit = no_limit);

    // Puts an object onto the shelf of a kind. Whether it came in place of another, which is given back.
    Result<bool> put(std::uint32_t kind, Bytes bytes) {
        bool replaced = false;
        ebpf_status status = detail::put(this->get(), kind, bytes.data(), bytes.size(), &replaced);
        if (status != EBPF_DONE) EBPF_HOST_FAIL Error(status);
        return replaced;
    }

    // Takes an object off the shelf of a kind. Whether one was there; if not, `bytes` is as it was. If `bytes` is longer than an object
    // of the kind, the rest is as it was.
    [[nodiscard]] Result<bool> take(std::uint32_t kind, Room bytes) {
        bool found = false;
        ebpf_status status = detail::take(this->get(), kind, bytes.data(), bytes.size(), &found);
        if (status != EBPF_DONE) EBPF_HOST_FAIL Error(status);
        return found;
    }
};

} // namespace detail

// The functions of an object file, in the order of its symbol table: Program::load_elf takes their names. It fails with a Refused if the file can't
// be read, or with an Error of EBPF_NO_MEMORY.
[[nodiscard]] inline Result<std::vector<Function>> elf_functions(Bytes file) {
    std::vector<Function> functions;
    std::size_t count = 0;
    ebpf_refusal refusal = {};
    std::string text(1024, '\0');
    ebpf_status status = EBPF_DONE;
    const auto list = [&] {
        status = ebpf_elf_functions(file.data(), file.size(), functions.data(), functions.size(), &count, text.data(), text.size(), &refusal);
    };
    list(); // which counts them
    if (status == EBPF_DONE) functions.resize(count), list();
    if (status == EBPF_REFUSED) EBPF_HOST_FAIL Refused(refusal, std::string_view(text).substr(0, refusal.length));
    if (status != EBPF_DONE) EBPF_HOST_FAIL Error(status);
    return functions;
}

// What a program is loaded for.
struct Declaration {
    std::uint32_t context = 0; // bytes that the host gives to each run, 0 to 4096
    std::uint32_t held = 0;    // the most objects that a run may hold at one time, 0 to 64
};

// A program that was accepted. Any number of threads may run it by one handle at the same time, as a `const Program &`; load it before
// they begin, and let it live until they end. Where no one thread outlives the others, give each a handle by share().
class Program : public detail::Handle<ebpf_program> {
public:
    // Loads raw slots. As every load here, it fails with a Refused, or with an Error of EBPF_DECLARATION or EBPF_NO_MEMORY. The text of a
    // refusal is whole, however long it is: if the first buffer is too short, the bytes are judged once more.
    [[nodiscard]] static Result<Program> load(Bytes slots, Declaration declaration) {
        return by([&](auto... rest) { return ebpf_program_load(rest...); }, slots, declaration);
    }

    // The same after its loops are unrolled.
    [[nodiscard]] static Result<Program> load_unrolled(Bytes slots, Declaration declaration) {
        return by([&](auto... rest) { return ebpf_program_load_unrolled(rest...); }, slots, declaration);
    }

    // Loads a function of an object file. With an empty name it is the only function of the file.
    [[nodiscard]] static Result<Program> load_elf(Bytes file, std::string_view function, Declaration declaration) {
        return by(
            [&](ebpf_program *raw, const std::uint8_t *bytes, std::size_t length, auto... rest) {
                return ebpf_program_load_elf(raw, bytes, length, function.data(), function.size(), rest...);
            },
            file, declaration);
    }

    // The same after its loops are unrolled.
    [[nodiscard]] static Result<Program> load_elf_unrolled(Bytes file, std::string_view function, Declaration declaration) {
        return by(
            [&](ebpf_program *raw, const std::uint8_t *bytes, std::size_t length, auto... rest) {
                return ebpf_program_load_elf_unrolled(raw, bytes, length, function.data(), function.size(), rest...);
            },
            file, declaration);
    }

    // What was declared: how many bytes of context a run takes, and how many objects it may hold. 0 of an empty handle, and so are the slots.
    [[nodiscard]] std::uint32_t context() const noexcept { return ebpf_program_context(get()); }
    [[nodiscard]] std::uint32_t held() const noexcept { return ebpf_program_held(get()); }

    // How many slots of eight bytes the program has as it is run, with its loops unrolled: 1 to 4096.
    [[nodiscard]] std::uint32_t slots() const noexcept { return ebpf_program_slots(get()); }

    // A second handle of the same program, which lives as long as either does. Threads may make theirs from one handle at the same time.
    [[nodiscard]] Result<Program> share() const {
        Program other;
        ebpf_status status = ebpf_program_share(other.get(), get());
        if (status != EBPF_DONE) EBPF_HOST_FAIL Error(status);
        return other;
    }

private:
    template <class Load> static Result<Program> by(Load load, Bytes bytes, Declaration declaration) {
        Program program;
        ebpf_refusal refusal = {};
        std::string text(1024, '\0');
        ebpf_status status = EBPF_REFUSED;
        const auto judge = [&] {
            status = load(program.get(), bytes.data(), bytes.size(), declaration.context, declaration.held, text.data(), text.size(), &refusal);
        };
        judge();
        if (status == EBPF_REFUSED && refusal.length > text.size()) text.resize(refusal.length), judge();
        if (status == EBPF_REFUSED) EBPF_HOST_FAIL Refused(refusal, std::string_view(text).substr(0, refusal.length));
        if (status != EBPF_DONE) EBPF_HOST_FAIL Error(status);
        return program;
    }
};

// The memory of runs, with shelves of its own. A thread that runs programs has a machine, or a worker.
class Machine : public detail::Runner<ebpf_machine> {
public:
    // Makes a machine of up to that many pages, 1 to 256. Programs that take no objects need one page, which is never allocated.
    [[nodiscard]] static Result<Machine> create(std::uint32_t pages) {
        Machine machine;
        ebpf_status status = ebpf_machine_new(machine.get(), pages);
        if (status != EBPF_DONE) EBPF_HOST_FAIL Error(status);
        return machine;
    }

    // Gives back each page with no object on it, none that is held and none on a shelf.
    Result<void> reap() {
        ebpf_status status = ebpf_machine_reap(get());
        if (status != EBPF_DONE) EBPF_HOST_FAIL Error(status);
        return Result<void>();
    }
};

// A worker, which runs programs over what a Shared has. Its thread may change between two calls. It may outlive the Shared: what is shared
// is freed with the last of them. Destroying or resetting it closes it.
class Worker : public detail::Runner<ebpf_worker> {};

// The caches and shelves of a host's threads, each with a Worker. Calls on a Shared are one at a time, on any thread, while workers run.
class Shared : public detail::Handle<ebpf_shared> {
public:
    // Makes what up to that many workers share, 1 to 64, with objects on up to that many pages, 1 to 256.
    [[nodiscard]] static Result<Shared> create(std::uint32_t pages, std::uint32_t workers) {
        Shared shared;
        ebpf_status status = ebpf_shared_new(shared.get(), pages, workers);
        if (status != EBPF_DONE) EBPF_HOST_FAIL Error(status);
        return shared;
    }

    // Opens a worker. To open one in the place of another, reset that first: an assignment would close it only after this call.
    [[nodiscard]] Result<Worker> open() {
        Worker worker;
        ebpf_status status = ebpf_worker_open(worker.get(), get());
        if (status != EBPF_DONE) EBPF_HOST_FAIL Error(status);
        return worker;
    }

    // Gives back pages with no object on them. How many.
    Result<std::uint32_t> reap() {
        std::uint32_t pages = 0;
        ebpf_status status = ebpf_shared_reap(get(), &pages);
        if (status != EBPF_DONE) EBPF_HOST_FAIL Error(status);
        return pages;
    }

    // Ends all, and gives the totals; this handle is empty then. With a worker open it fails with EBPF_BUSY and changes nothing. A Shared
    // that is destroyed instead gives no totals, and its workers go on.
    [[nodiscard]] Result<Totals> close() {
        Totals totals;
        ebpf_status status = ebpf_shared_close(get(), &totals);
        if (status != EBPF_DONE) EBPF_HOST_FAIL Error(status);
        return totals;
    }
};

template <class Raw>
Result<Report> detail::Runner<Raw>::run(const Program &program, Bytes context, std::uint64_t limit, std::span<std::uint64_t> output) {
    Report report;
    ebpf_status status =
        detail::run(this->get(), program.get(), context.data(), context.size(), limit, output.data(), output.size(), &report);
    if (status != EBPF_DONE) EBPF_HOST_FAIL Error(status);
    return report;
}

template <class Raw>
Result<Report> detail::Runner<Raw>::run_padded(const Program &program, Bytes context, std::uint64_t limit, std::span<std::uint64_t> output) {
    Report report;
    ebpf_status status =
        detail::run_padded(this->get(), program.get(), context.data(), context.size(), limit, output.data(), output.size(), &report);
    if (status != EBPF_DONE) EBPF_HOST_FAIL Error(status);
    return report;
}

template <class Raw>
Result<void> detail::Runner<Raw>::run_batch(const Program &program, Bytes contexts, std::span<Report> reports, std::uint64_t limit) {
    std::size_t done = 0;
    ebpf_status status =
        detail::run_batch(this->get(), program.get(), contexts.data(), contexts.size(), limit, reports.data(), reports.size(), &done);
    if (status != EBPF_DONE) EBPF_HOST_FAIL Error(status, done);
    return Result<void>();
}

#undef EBPF_HOST_FAIL

} // namespace with_exceptions or with_results
} // namespace ebpf

#endif
