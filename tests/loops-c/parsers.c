// Loops whose steps depend on what is read.
#include "../compilers/helpers.h"

// Options of a type, a length and a value: each goes on by its length, which is at least two.
// context 64, held 0
number options(const byte *bytes)
{
    word i = 0, sum = 0;
    while (i < 62) {
        word type = bytes[i], length = bytes[i + 1];
        if (type == 0)
            break;
        if (length < 2)
            return 1000;
        sum += type;
        i += length;
    }
    return sum;
}

// The same, for at most ten options.
// context 64, held 0
number ten_options(const byte *bytes)
{
    word i = 0, sum = 0;
    for (int turn = 0; turn < 10; turn++) {
        if (i >= 62)
            break;
        word type = bytes[i], length = bytes[i + 1];
        if (type == 0)
            break;
        if (length < 2)
            return 1000;
        sum += type;
        i += length;
    }
    return sum;
}

// Numbers of a byte, or of two if the first has its high bit: the step is one or two.
// context 64, held 0
number steps_of_one_or_two(const byte *bytes)
{
    word sum = 0;
    for (word i = 0; i < 63;) {
        if (bytes[i] & 0x80) {
            sum += bytes[i] << 8 | bytes[i + 1];
            i += 2;
        } else {
            sum += bytes[i];
            i++;
        }
    }
    return sum;
}

// How often `abc` is in 32 bytes, and not in what is skipped after it: a machine of four states.
// context 32, held 0
number machine_of_four_states(const byte *bytes)
{
    word state = 0, count = 0;
    for (int i = 0; i < 32; i++) {
        word here = bytes[i];
        if (state == 0) {
            if (here == 'a')
                state = 1;
        } else if (state == 1) {
            if (here == 'b')
                state = 2;
            else if (here != 'a')
                state = 0;
        } else if (state == 2) {
            if (here == 'c') {
                count++;
                state = 3;
            } else {
                state = 0;
            }
        } else {
            state = here & 1 ? 0 : 3;
        }
    }
    return count;
}

// A loop that is entered at its beginning or in its middle, as the first byte says.
// context 16, held 0
number entered_in_two_places(const byte *bytes)
{
    word i = 0, sum = 0;
    if (bytes[0] & 1)
        goto middle;
top:
    sum = sum * 3 + bytes[i];
    i++;
middle:
    sum ^= bytes[i & 15];
    i++;
    if (i < 14)
        goto top;
    return sum;
}
