// Loops that are left early, once something is found.
#include "../compilers/helpers.h"

// The place of the first 42 among 32 bytes, or 32: the loop is left by a break.
// context 32, held 0
number place_of_a_byte(const byte *bytes)
{
    word i;
    for (i = 0; i < 32; i++)
        if (bytes[i] == 42)
            break;
    return i;
}

// The byte after the first 7, or 999: the function returns out of the loop.
// context 33, held 0
number byte_after_another(const byte *bytes)
{
    for (word i = 0; i < 32; i++)
        if (bytes[i] == 7)
            return bytes[i + 1];
    return 999;
}

// How many bytes precede the first zero, of at most 64.
// context 64, held 0
number length_of_a_text(const byte *bytes)
{
    word i = 0;
    while (i < 64 && bytes[i])
        i++;
    return i;
}

// Compares 32 bytes with the next 32: 0, or 1 or 2 for the lesser.
// context 64, held 0
number which_is_less(const byte *bytes)
{
    for (int i = 0; i < 32; i++)
        if (bytes[i] != bytes[32 + i])
            return bytes[i] < bytes[32 + i] ? 1 : 2;
    return 0;
}

// The greatest of 32 bytes, and its place, which is an index after the loop.
// context 32, held 0
number place_of_the_greatest(const byte *bytes)
{
    word place = 0;
    for (word i = 1; i < 32; i++)
        if (bytes[i] > bytes[place])
            place = i;
    return bytes[place] * 32 + place;
}

// Halves 32 bytes until a byte's place is found: no constant bounds the turns.
// context 33, held 0
number place_by_halves(const byte *bytes)
{
    word low = 0, high = 32, wanted = bytes[32];
    while (low < high) {
        word middle = (low + high) / 2;
        if (middle >= 32)
            return 99;
        if (bytes[middle] < wanted)
            low = middle + 1;
        else
            high = middle;
    }
    return low;
}

// Does the same in at most six turns.
// context 33, held 0
number place_in_six_turns(const byte *bytes)
{
    word low = 0, high = 32, wanted = bytes[32];
    for (int turn = 0; turn < 6 && low < high; turn++) {
        word middle = (low + high) / 2;
        if (middle >= 32)
            return 99;
        if (bytes[middle] < wanted)
            low = middle + 1;
        else
            high = middle;
    }
    return low;
}
