// Loops that are rightly refused.
#include "../compilers/helpers.h"

// Turns a thousand times, which is more than a program has slots for.
// context 1, held 0
number thousand_turns(const byte *bytes)
{
    word sum = bytes[0];
    for (int i = 0; i < 1000; i++)
        sum = sum * 5 + 1;
    return sum;
}

// Never ends.
// context 1, held 0
number endless(const byte *bytes)
{
    word sum = bytes[0];
    for (;;)
        emit(sum++);
}

// Reads past the context, in its last turn.
// context 16, held 0
number one_byte_too_far(const byte *bytes)
{
    word sum = 0;
    for (int i = 0; i < 17; i++)
        sum += bytes[i];
    return sum;
}
