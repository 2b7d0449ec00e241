// Counts how many readings of each row are below 128, and how many are not, and emits both counts. There are four rows of four readings.
//
// Each turn takes a cell for the counts and frees it, so the program holds one object at a time. The context is the readings, a byte
// each. The result is 0, or 1 as soon as there is no cell.
#include "../include/ebpf_program.h"

unsigned rows(const ebpf_byte *readings)
{
    for (int row = 0; row < 4; row++) {
        ebpf_cell *counts = new(CELL);
        if (!counts)
            return 1;
        for (int i = 0; i < 4; i++)
            counts->numbers[readings[4 * row + i] >> 7]++;
        emit(counts->numbers[0]);
        emit(counts->numbers[1]);
        free(counts);
    }
    return 0;
}
