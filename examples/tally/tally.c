// Counts a reading among the eighths of 0 to 255, in a record on a shelf that any number of workers share: 0, or 1 where there is no record
// for it. The context is the reading, a byte.
#include "../../include/ebpf_program.h"

unsigned long tally(const ebpf_byte *reading)
{
    ebpf_record *counts = new(RECORD);
    if (!counts) return 1;
    for (int eighth = 0; eighth < 8; eighth++) counts->numbers[eighth] = 0;
    counts->numbers[*reading >> 5] = 1;
    shelve_sums(RECORD, counts);
    return 0;
}

// Takes what has been counted off the shelf and emits it, eighth by eighth: 0, or 1 where nothing is there.
unsigned long harvest(void)
{
    ebpf_record *counts = swap(RECORD, 0);
    if (!counts) return 1;
    ebpf_emit_and_free(RECORD, counts->numbers);
    return 0;
}
