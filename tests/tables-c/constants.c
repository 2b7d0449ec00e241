// Constants that are read from memory.
#include "../compilers/helpers.h"

struct pair { number first, second; };
static const struct pair start = { 0x1122334455667788ul, 0x99aabbccddeeff00ul };

// A constant of 16 bytes is copied to the stack.
// context 1, held 0
number copied_pair(const byte *bytes)
{
    struct pair pair = start;
    volatile struct pair *at = &pair;
    at->first ^= bytes[0];
    return at->first + at->second;
}

// An array that is filled at the function's beginning.
// context 1, held 0
number filled_array(const byte *bytes)
{
    word values[8] = { 14, 2, 39, 1, 24, 17, 6, 30 };
    volatile word *at = values;
    return at[1] + at[6] + bytes[0];
}

const volatile word limit = 100;

// A constant that is marked as volatile, as loaders of other runtimes fill it in.
// context 1, held 0
number above_a_limit(const byte *bytes)
{
    return bytes[0] > limit;
}
