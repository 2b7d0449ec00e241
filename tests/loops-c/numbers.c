// Loops that turn until a number is small enough.
#include "../compilers/helpers.h"

// How many bits of a number are set: each turn takes one away, so there are at most 64, which no range shows.
// context 8, held 0
number bits_taken_away(const number *numbers)
{
    number left = numbers[0];
    word count = 0;
    while (left) {
        left &= left - 1;
        count++;
    }
    return count;
}

// How many bits a number has: it is halved in each turn, and so is its range.
// context 8, held 0
number bits_by_halving(const number *numbers)
{
    number left = numbers[0];
    word count = 0;
    while (left) {
        left >>= 1;
        count++;
    }
    return count;
}

// Emits the decimal digits of a number, the last one first.
// context 8, held 0
number digits_emitted(const number *numbers)
{
    number left = numbers[0];
    word count = 0;
    do {
        emit(left % 10);
        left /= 10;
        count++;
    } while (left);
    return count;
}

// The greatest common divisor of two bytes, by Euclid.
// context 2, held 0
number common_divisor(const byte *bytes)
{
    word a = bytes[0], b = bytes[1];
    while (b) {
        word rest = a % b;
        a = b;
        b = rest;
    }
    return a;
}

// How many turns Collatz takes to reach 1: nothing bounds them.
// context 1, held 0
number collatz(const byte *bytes)
{
    word n = bytes[0], turns = 0;
    while (n > 1) {
        n = (n & 1) ? 3 * n + 1 : n / 2;
        turns++;
    }
    return turns;
}

// The same, in at most 100 turns.
// context 1, held 0
number collatz_in_100_turns(const byte *bytes)
{
    word n = bytes[0], turns;
    for (turns = 0; turns < 100 && n > 1; turns++)
        n = (n & 1) ? 3 * n + 1 : n / 2;
    return turns;
}

// A power, to a byte and by a modulus: the exponent is halved in each turn.
// context 3, held 0
number power(const byte *bytes)
{
    number base = bytes[0], result = 1;
    word exponent = bytes[1];
    while (exponent) {
        if (exponent & 1)
            result = result * base % 65521;
        base = base * base % 65521;
        exponent >>= 1;
    }
    return result;
}

// The root of a word, by its sixteen bits.
// context 4, held 0
number root_by_bits(const word *words)
{
    word left = words[0], root = 0;
    for (word bit = 1u << 30; bit; bit >>= 2) {
        if (left >= root + bit) {
            left -= root + bit;
            root = (root >> 1) + bit;
        } else {
            root >>= 1;
        }
    }
    return root;
}
