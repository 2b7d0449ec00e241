// The programs of the tests, as hex.
#ifndef PROGRAMS_HPP
#define PROGRAMS_HPP

#include <cstdint>
#include <string>
#include <string_view>
#include <vector>

// returns 7
inline constexpr std::string_view SEVEN = "b7000000070000009500000000000000";
// reads four bytes of the context
inline constexpr std::string_view READ = "61100000000000009500000000000000";
// emits the byte of the context and returns 7
inline constexpr std::string_view EMIT = "71110000000000008500000003000000b7000000070000009500000000000000";
// takes a cell, reads back the 5 that it wrote there, and returns it; 0 if it gets none
inline constexpr std::string_view CELL = "b701000000000000850000000100000015000500000000007a00000005000000"
                                         "7906000000000000bf010000000000008500000002000000bf600000000000009500000000000000";
// takes what is on the shelf of records, and gives it back
inline constexpr std::string_view FETCH = "b701000001000000b70200000000000085000000040000001500020000000000"
                                          "bf010000000000008500000002000000b7000000000000009500000000000000";
// leaves a record with the byte of the context on the shelf of records, and gives back what was there
inline constexpr std::string_view LEAVE = "7116000000000000b701000001000000850000000100000015000800000000007b60000000000000b701000001000000"
                                          "bf0200000000000085000000040000001500020000000000bf010000000000008500000002000000b700000000000000"
                                          "9500000000000000";
// adds 2 and returns the sum after three turns of a loop
inline constexpr std::string_view LOOP = "b70000000000000007000000020000005500feff060000009500000000000000";

inline std::vector<std::uint8_t> slots_of(std::string_view digits) {
    std::vector<std::uint8_t> slots;
    for (std::size_t i = 0; i < digits.size(); i += 2) {
        slots.push_back(static_cast<std::uint8_t>(std::stoi(std::string(digits.substr(i, 2)), nullptr, 16)));
    }
    return slots;
}

#endif
