// Loops that turn as often as a number of the context says.
#include "../compilers/helpers.h"

// Adds up as many bytes as the first says, and at most 64: both are tested in each turn.
// context 65, held 0
number sum_tested_twice(const byte *bytes)
{
    word sum = 0, count = bytes[0];
    for (word i = 0; i < count && i < 64; i++)
        sum += bytes[1 + i];
    return sum;
}

// Does nothing for a number above 64: it is compared once, before the loop.
// context 65, held 0
number sum_checked_before(const byte *bytes)
{
    word sum = 0, count = bytes[0];
    if (count > 64)
        return 0;
    for (word i = 0; i < count; i++)
        sum += bytes[1 + i];
    return sum;
}

// Takes the low five bits of the number.
// context 33, held 0
number sum_masked(const byte *bytes)
{
    word sum = 0, count = bytes[0] & 31;
    for (word i = 0; i < count; i++)
        sum += bytes[1 + i];
    return sum;
}

// Takes at most sixteen, and counts the number itself down.
// context 17, held 0
number digits_down_from_a_length(const byte *bytes)
{
    word sum = 0, left = bytes[0];
    if (left > 16)
        left = 16;
    while (left > 0) {
        sum = sum * 7 + bytes[left];
        left--;
    }
    return sum;
}

// Adds bytes up until a pointer reaches another, which depends on the number.
// context 65, held 0
number sum_up_to_a_far_pointer(const byte *bytes)
{
    word sum = 0, count = bytes[0];
    if (count > 64)
        count = 64;
    const byte *end = bytes + 1 + count;
    for (const byte *at = bytes + 1; at < end; at++)
        sum += *at;
    return sum;
}

// The Internet checksum of as many halves as the first says; two additions take in the carries.
// context 66, held 0
number checksum_of_a_length(const half *halves)
{
    word sum = 0, count = halves[0];
    if (count > 32)
        return 0;
    for (word i = 0; i < count; i++)
        sum += halves[1 + i];
    sum = (sum & 0xffff) + (sum >> 16);
    sum = (sum & 0xffff) + (sum >> 16);
    return ~sum & 0xffff;
}

// A number of Fibonacci: only the size of a byte bounds the turns, of which there are up to 255.
// context 1, held 0
number fibonacci(const byte *bytes)
{
    number low = 0, high = 1;
    word count = bytes[0];
    for (word i = 0; i < count; i++) {
        number sum = low + high;
        low = high;
        high = sum;
    }
    return low;
}

// Emits squares: a call in each turn, which the counter outlives.
// context 1, held 0
number squares_emitted(const byte *bytes)
{
    word count = bytes[0];
    if (count > 20)
        count = 20;
    for (word i = 0; i < count; i++)
        emit(i * i);
    return count;
}

// Adds up as many bytes as a word says, and at most 64: the lesser of both is the bound.
// context 68, held 0
number sum_of_the_lesser(const word *words)
{
    const byte *bytes = (const byte *)words;
    word sum = 0, count = words[0];
    if (count > 64)
        count = 64;
    for (word i = 0; i < count; i++)
        sum += bytes[4 + i];
    return sum;
}

// Does so by a signed number, of which both bounds are tested in each turn.
// context 68, held 0
number sum_of_a_signed_length(const int *numbers)
{
    const byte *bytes = (const byte *)numbers;
    int sum = 0, count = numbers[0];
    for (int i = 0; i < count && i < 64; i++)
        sum += bytes[4 + i];
    return sum;
}

// Turns at least once, and tests after each turn.
// context 64, held 0
number sum_tested_after(const byte *bytes)
{
    word count = (bytes[0] & 31) + 1, i = 0, sum = 0;
    do {
        sum += bytes[i];
        i++;
    } while (i < count);
    return sum;
}

// Counts odd bytes in a first loop, and adds up that many in a second one.
// context 32, held 0
number as_many_as_are_odd(const byte *bytes)
{
    word count = 0, sum = 0;
    for (word i = 0; i < 16; i++)
        if (bytes[i] & 1)
            count++;
    for (word i = 0; i < count; i++)
        sum += bytes[16 + i];
    return sum;
}
