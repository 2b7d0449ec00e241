// Loops whose number of turns is a constant of the C.
#include "../compilers/helpers.h"

// Adds up sixteen bytes: a counter goes up to a constant.
// context 16, held 0
number sum_counting_up(const byte *bytes)
{
    word sum = 0;
    for (int i = 0; i < 16; i++)
        sum += bytes[i];
    return sum;
}

// Takes sixteen bytes for digits, the last one first: a signed counter goes down past zero.
// context 16, held 0
number digits_counting_down(const byte *bytes)
{
    word sum = 0;
    for (int i = 15; i >= 0; i--)
        sum = sum * 31 + bytes[i];
    return sum;
}

// Does the same by an unsigned counter, which is tested before it goes down.
// context 16, held 0
number digits_down_to_zero(const byte *bytes)
{
    word sum = 0, left = 16;
    while (left--)
        sum = sum * 3 + bytes[left];
    return sum;
}

// Adds up sixteen bytes by a pointer, until it is the one past the last.
// context 16, held 0
number sum_up_to_a_pointer(const byte *bytes)
{
    word sum = 0;
    const byte *end = bytes + 16;
    for (const byte *at = bytes; at != end; at++)
        sum += *at;
    return sum;
}

// Takes eight rows of eight bytes: a loop in a loop.
// context 64, held 0
number rows_of_eight(const byte *bytes)
{
    word sum = 0;
    for (int i = 0; i < 8; i++) {
        word row = 1;
        for (int j = 0; j < 8; j++)
            row = row * 3 + bytes[8 * i + j];
        sum ^= row;
    }
    return sum;
}

// Compares each of sixteen bytes with those before it: the outer counter bounds the inner loop.
// context 16, held 0
number pairs_in_a_triangle(const byte *bytes)
{
    word sum = 0;
    for (word i = 0; i < 16; i++)
        for (word j = 0; j < i; j++)
            sum += bytes[i] ^ bytes[j];
    return sum;
}

// The CRC-8 of sixteen bytes: eight bits of each, and a branch on each bit.
// context 16, held 0
number crc_bit_by_bit(const byte *bytes)
{
    word crc = 0;
    for (int i = 0; i < 16; i++) {
        crc ^= bytes[i];
        for (int bit = 0; bit < 8; bit++)
            crc = (crc & 0x80) ? ((crc << 1) ^ 7) & 0xff : (crc << 1) & 0xff;
    }
    return crc;
}

// The hash FNV-1a of 64 bytes, at 64 bits.
// context 64, held 0
number hash_of_64_bytes(const byte *bytes)
{
    number hash = 0xcbf29ce484222325ul;
    for (int i = 0; i < 64; i++) {
        hash ^= bytes[i];
        hash *= 0x100000001b3ul;
    }
    return hash;
}

// The Internet checksum of twenty bytes, whose carries are added until there is none: only the sum's range bounds that.
// context 20, held 0
number checksum_of_20_bytes(const half *halves)
{
    word sum = 0;
    for (int i = 0; i < 10; i++)
        sum += halves[i];
    while (sum >> 16)
        sum = (sum & 0xffff) + (sum >> 16);
    return ~sum & 0xffff;
}

// Turns a linear generator 600 times: as many copies as a program can nearly have.
// context 1, held 0
number six_hundred_turns(const byte *bytes)
{
    word sum = bytes[0];
    for (int i = 0; i < 600; i++)
        sum = sum * 5 + 1;
    return sum;
}
