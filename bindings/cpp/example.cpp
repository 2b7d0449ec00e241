// Counts the IPv4 headers of a file whose checksum is right, on threads that run one program.
//
//     example CHECKSUM.o HEADERS [THREADS]
//
// CHECKSUM.o is examples/checksum.o. HEADERS has headers of 20 bytes, one after another. THREADS is 4 if it isn't given.
#include <algorithm>
#include <array>
#include <cstdio>
#include <cstdlib>
#include <fstream>
#include <functional>
#include <future>
#include <iterator>
#include <numeric>
#include <stdexcept>
#include <vector>

#include <ebpf_host.hpp>

namespace {

constexpr std::size_t LENGTH = 20, BATCH = 64;

std::vector<std::uint8_t> read_file(const char *path) {
    std::ifstream file(path, std::ios::binary);
    if (!file) throw std::runtime_error(std::string(path) + " can't be opened");
    return {std::istreambuf_iterator<char>(file), {}};
}

// How many of these headers are right. All threads run one program, each on a machine of its own.
std::size_t count(const ebpf::Program &program, ebpf::Bytes headers) {
    ebpf::Machine machine = ebpf::Machine::create(1);
    std::array<ebpf::Report, BATCH> reports;
    std::size_t right = 0;
    while (!headers.empty()) {
        std::span<ebpf::Report> some = std::span(reports).first(std::min(BATCH, headers.size() / LENGTH));
        machine.run_batch(program, headers.first(some.size() * LENGTH), some);
        right += static_cast<std::size_t>(std::ranges::count(some, 0U, &ebpf::Report::exit));
        headers = headers.subspan(some.size() * LENGTH);
    }
    return right;
}

// The same, with a part of the headers for each thread.
std::size_t count_on(std::size_t threads, const ebpf::Program &program, ebpf::Bytes headers) {
    const std::size_t all = headers.size() / LENGTH;
    std::vector<std::future<std::size_t>> counts;
    for (std::size_t i = 0; i < threads; i++) {
        std::size_t first = all * i / threads, end = all * (i + 1) / threads;
        ebpf::Bytes part = headers.subspan(first * LENGTH, (end - first) * LENGTH);
        counts.push_back(std::async(std::launch::async, count, std::cref(program), part));
    }
    return std::accumulate(counts.begin(), counts.end(), std::size_t{0}, [](std::size_t sum, auto &one) { return sum + one.get(); });
}

} // namespace

int main(int words_count, char **words) try {
    if (words_count < 3) throw std::runtime_error("usage: example CHECKSUM.o HEADERS [THREADS]");
    const std::size_t threads = words_count > 3 ? std::strtoul(words[3], nullptr, 10) : 4;
    const ebpf::Program program = ebpf::Program::load_elf(read_file(words[1]), {}, {.context = LENGTH});
    const std::vector<std::uint8_t> headers = read_file(words[2]);
    std::printf("right %zu of %zu\n", count_on(threads, program, headers), headers.size() / LENGTH);
} catch (const ebpf::Refused &why) {
    std::fprintf(stderr, "example: refused %s\n%s", why.what(), std::string(why.lines()).c_str());
    return 2;
} catch (const std::exception &why) {
    std::fprintf(stderr, "example: %s\n", why.what());
    return 1;
}
