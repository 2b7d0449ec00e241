// Cases that compilers may make a table of.
#include "../compilers/helpers.h"

// A constant for each case.
// context 1, held 0
number constant_of_a_case(const byte *bytes)
{
    switch (bytes[0]) {
    case 0: return 11;
    case 1: return 77;
    case 2: return 5;
    case 3: return 123;
    case 4: return 99;
    case 5: return 8;
    case 6: return 42;
    case 7: return 1;
    default: return 0;
    }
}

// Something else to do in each case.
// context 11, held 0
number work_of_a_case(const byte *bytes)
{
    switch (bytes[0] & 7) {
    case 0: return bytes[1] * 3;
    case 1: return bytes[2] + 1;
    case 2: return bytes[3] ^ bytes[4];
    case 3: return bytes[5] << 2;
    case 4: return bytes[6] * bytes[7];
    case 5: return bytes[8] - 1;
    case 6: return bytes[9] | 3;
    default: return bytes[10];
    }
}
