// The number whose decimal digits come first in the context, which has 19 bytes: up to the first byte that is no digit.
//
// A digit only ends the loop early. That it ends at all is known by its counter.
#include "../include/ebpf_program.h"

ebpf_number decimal(const ebpf_byte *text)
{
    ebpf_number value = 0;
    for (int i = 0; i < 19; i++) {
        ebpf_byte digit = text[i] - '0';
        if (digit > 9)
            break;
        value = value * 10 + digit;
    }
    return value;
}
