// The checksum Adler-32 of up to 32 bytes. The context is their number, a byte, and then room for 32.
//
// The number decides how often the loop turns. It is compared with a constant first, so that is known to be at most 32 times.
#include "../include/ebpf_program.h"

enum { MOST = 32, MODULUS = 65521 };

unsigned adler(const ebpf_byte *context)
{
    unsigned sum = 1, sums = 0, length = context[0];
    if (length > MOST)
        length = MOST;
    for (unsigned i = 0; i < length; i++) {
        sum += context[1 + i];
        sums += sum;
    }
    return sums % MODULUS << 16 | sum % MODULUS;
}
