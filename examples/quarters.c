// How many of eight readings lie in each quarter of 0 to 255: four numbers are emitted.
//
// The readings are the context, a byte each. The counts lie in a cell, an object of 16 bytes that is all zeros when it is new.
// The result is 0, or 1 where no cell was granted.
#include "../include/ebpf_program.h"

int quarters(const ebpf_byte *readings)
{
    ebpf_cell *counts = new(CELL);
    if (!counts)
        return 1;
#pragma unroll
    for (int i = 0; i < 8; i++)
        counts->words[readings[i] / 64]++;
#pragma unroll
    for (int i = 0; i < 4; i++)
        emit(counts->words[i]);
    free(counts);
    return 0;
}
