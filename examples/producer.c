// Leaves a record of eight readings on the shelf of records, where another run takes it: consumer.c.
//
// The readings are the context, a byte each. The record says how many they are, and their sum. What stood on the shelf comes back in
// its place: a record that nobody took, which is freed. The result is 0, or 1 where no record was granted.
#include "../include/ebpf_program.h"

enum { READINGS = 8 };

struct sum {
    ebpf_number count;
    ebpf_number total;
};

int producer(const ebpf_byte *readings)
{
    struct sum *sum = new(RECORD);
    if (!sum)
        return 1;
    ebpf_number total = 0;
#pragma unroll
    for (int i = 0; i < READINGS; i++)
        total += readings[i];
    sum->count = READINGS;
    sum->total = total;
    void *old = swap(RECORD, sum);
    if (old)
        free(old);
    return 0;
}
