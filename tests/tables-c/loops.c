// Loops over tables and texts.
#include "../compilers/helpers.h"

static const word nibbles[16] = {
    0x00000000, 0x1db71064, 0x3b6e20c8, 0x26d930ac, 0x76dc4190, 0x6b6b51f4, 0x4db26158, 0x5005713c,
    0xedb88320, 0xf00f9344, 0xd6d6a3e8, 0xcb61b38c, 0x9b64c2b0, 0x86d3d2d4, 0xa00ae278, 0xbdbdf21c,
};

// The CRC-32 of eight bytes, four bits at a time.
// context 8, held 0
number crc_in_a_loop(const byte *bytes)
{
    word crc = ~0u;
#pragma clang loop unroll(disable)
    for (word at = 0; at < 8; at++) {
        crc = nibbles[(crc ^ bytes[at]) & 15] ^ (crc >> 4);
        crc = nibbles[(crc ^ (bytes[at] >> 4)) & 15] ^ (crc >> 4);
    }
    return ~crc;
}

// The place of a byte in a text, or its length: the loop is left by a break.
// context 1, held 0
number place_in_a_text(const byte *bytes)
{
    const char *text = "abcdefghijklmnopqrstuvwxyz0123456789*\1\2\3";
    word at;
#pragma clang loop unroll(disable)
    for (at = 0; at < 40; at++)
        if (bytes[0] == text[at])
            break;
    return at;
}

static const char methods[4][8] = { "GET ", "HEAD ", "POST ", "DELETE " };

// Which method of a table has the first four bytes of the context, or 4: a loop in a loop.
// context 4, held 0
number method_of_a_request(const byte *bytes)
{
    word method;
#pragma clang loop unroll(disable)
    for (method = 0; method < 4; method++) {
        word differ = 0;
#pragma clang loop unroll(disable)
        for (word at = 0; at < 4; at++)
            differ |= bytes[at] ^ methods[method][at];
        if (!differ)
            break;
    }
    return method;
}

static const byte steps[8] = { 3, 1, 4, 1, 5, 9, 2, 6 };

// An object in each turn, with a number of a table by the context.
// context 3, held 1
number object_of_each_step(const byte *bytes)
{
    number sum = 0;
#pragma clang loop unroll(disable)
    for (word at = 0; at < 3; at++) {
        number *cell = new(CELL);
        if (!cell)
            continue;
        *cell = steps[bytes[at] & 7];
        emit(*cell);
        sum += *cell * at;
        free(cell);
    }
    return sum;
}
