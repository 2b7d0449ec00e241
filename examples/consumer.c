// Takes the record that producer.c left on the shelf of records, and emits the mean of its readings.
//
// There is no context. The record is this run's until it is freed, with the bytes that the other run wrote. The result is 0, or 1
// where nothing stood on the shelf.
#include "../include/ebpf_program.h"

struct sum {
    ebpf_number count;
    ebpf_number total;
};

int consumer(void)
{
    struct sum *sum = swap(RECORD, 0);
    if (!sum)
        return 1;
    emit(sum->total / sum->count);
    free(sum);
    return 0;
}
