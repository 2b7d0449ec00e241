// Runs a program of two slots as often as it is asked, as overhead.c does in C.
#include <cstdio>
#include <cstdlib>

#include "ebpf_host.hpp"

#ifdef EBPF_HOST_RESULTS
template <class T> T &&valid(ebpf::Result<T> &&result) { return *std::move(result); }
#else
template <class T> T valid(T &&value) { return std::forward<T>(value); }
#endif

int main(int, char **words) {
    const std::uint8_t slots[16] = {0x61, 0x10, 0, 0, 0, 0, 0, 0, 0x95}; // reads four bytes of the context and returns them
    std::uint64_t runs = std::strtoull(words[1], nullptr, 10), sum = 0;
    ebpf::Program program = valid(ebpf::Program::load(slots, {.context = 4}));
    ebpf::Machine machine = valid(ebpf::Machine::create(1));
    for (std::uint32_t i = 0; i < runs; i++) {
#ifdef EBPF_HOST_RESULTS
        auto report = machine.run(program, ebpf::bytes_of(i));
        if (!report) return 1;
        sum += report->exit;
#else
        sum += machine.run(program, ebpf::bytes_of(i)).exit;
#endif
    }
    std::printf("%llu\n", static_cast<unsigned long long>(sum));
}
