// Reads the header of a message: 0, or why it is none, which is emitted too.
//
// The context is the header: version, type with two flags above it, length with the high byte first, a sum, and a byte that is
// reserved. All that is wrong with it leads to one exit.
//
// context 6, held 0
// message.gcc.hex: gcc 12.2.0, bpf-gcc -Os -ffreestanding
#include "helpers.h"

enum { VERSION, TYPE, LENGTH, SUM = 4, RESERVED };
enum { HELLO = 1, DATA, CLOSE };
enum { URGENT = 0x40, CHECKED = 0x80 };
enum { WRONG_VERSION = 1, WRONG_LENGTH, WRONG_TYPE, WRONG_SUM };

number message(const byte *header)
{
    number fault;
    if (header[VERSION] != 1) {
        fault = WRONG_VERSION;
        goto bad;
    }
    word length = header[LENGTH] << 8 | header[LENGTH + 1];
    fault = WRONG_LENGTH;
    switch (header[TYPE] & 0x3f) {
    case HELLO:
        if (length != 4)
            goto bad;
        break;
    case DATA:
        if (length < 1 || length > 1400)
            goto bad;
        emit(length);
        break;
    case CLOSE:
        if (length != 0)
            goto bad;
        break;
    default:
        fault = WRONG_TYPE;
        goto bad;
    }
    if (header[TYPE] & CHECKED) {
        byte sum = header[VERSION] ^ header[TYPE] ^ header[LENGTH] ^ header[LENGTH + 1] ^ header[RESERVED];
        if (sum != header[SUM]) {
            fault = WRONG_SUM;
            goto bad;
        }
    }
    if (header[TYPE] & URGENT)
        emit(URGENT);
    return 0;
bad:
    emit(fault);
    return fault;
}
