// Checksums by tables.
#include "../compilers/helpers.h"

static const word nibbles[16] = {
    0x00000000, 0x1db71064, 0x3b6e20c8, 0x26d930ac, 0x76dc4190, 0x6b6b51f4, 0x4db26158, 0x5005713c,
    0xedb88320, 0xf00f9344, 0xd6d6a3e8, 0xcb61b38c, 0x9b64c2b0, 0x86d3d2d4, 0xa00ae278, 0xbdbdf21c,
};

// The CRC-32 of four bytes, four bits at a time.
// context 4, held 0
number crc_by_nibbles(const byte *bytes)
{
    word crc = ~0u;
#define BYTE(at) \
    crc = nibbles[(crc ^ bytes[at]) & 15] ^ (crc >> 4); \
    crc = nibbles[(crc ^ (bytes[at] >> 4)) & 15] ^ (crc >> 4);
    BYTE(0)
    BYTE(1)
    BYTE(2)
    BYTE(3)
    return ~crc;
}

static const byte rotation[16] = { 3, 7, 11, 19, 5, 9, 13, 23, 1, 2, 4, 8, 6, 10, 12, 14 };

// Each byte is rotated by what a table says, and the table's place depends on the sum so far.
// context 8, held 0
number mixed_by_a_table(const byte *bytes)
{
    word sum = 1;
#define MIX(at) \
    { \
        word by = rotation[(sum ^ bytes[at]) & 15]; \
        sum = (sum << by | sum >> (32 - by)) + bytes[at]; \
    }
    MIX(0) MIX(1) MIX(2) MIX(3) MIX(4) MIX(5) MIX(6) MIX(7)
    return sum;
}
