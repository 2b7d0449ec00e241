// The CRC-32 of nine bytes, which are the context, as Ethernet and zip compute it: bit by bit.
//
// Both loops have a fixed number of turns. The compiler leaves the outer one as it is, and `ebpf_run unroll` unrolls it.
#include "../include/ebpf_program.h"

unsigned crc(const ebpf_byte *bytes)
{
    unsigned rest = ~0u;
    for (int i = 0; i < 9; i++) {
        rest ^= bytes[i];
        for (int bit = 0; bit < 8; bit++)
            rest = rest & 1 ? rest >> 1 ^ 0xedb88320u : rest >> 1;
    }
    return ~rest;
}
