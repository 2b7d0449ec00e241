// Which state a TCP connection is in after a segment: its number, and what is answered is emitted.
//
// The context is the state before, and the flags of the segment. What resets the connection is one place, to which all states lead.
//
// context 2, held 0
// handshake.clang.hex: clang 14.0.6, clang -Os -target bpfel -mcpu=v3
// handshake.gcc.hex: gcc 12.2.0, bpf-gcc -O2 -ffreestanding
#include "helpers.h"

enum { STATE, FLAGS };
enum { FIN = 1, SYN = 2, RST = 4, ACK = 16 };
enum { CLOSED, LISTEN, SYN_SENT, SYN_RECEIVED, ESTABLISHED, FIN_WAIT_1, FIN_WAIT_2, CLOSE_WAIT, CLOSING, LAST_ACK, TIME_WAIT };

number handshake(const byte *segment)
{
    byte state = segment[STATE], flags = segment[FLAGS];
    if (flags & RST)
        goto reset;
    switch (state) {
    case LISTEN:
        if (!(flags & SYN))
            goto reset;
        emit(SYN | ACK);
        return SYN_RECEIVED;
    case SYN_SENT:
        if ((flags & (SYN | ACK)) != (SYN | ACK))
            goto reset;
        emit(ACK);
        return ESTABLISHED;
    case SYN_RECEIVED:
        return flags & ACK ? ESTABLISHED : SYN_RECEIVED;
    case ESTABLISHED:
        if (!(flags & FIN))
            return state;
        emit(ACK);
        return CLOSE_WAIT;
    case FIN_WAIT_1:
        if (!(flags & FIN))
            return flags & ACK ? FIN_WAIT_2 : FIN_WAIT_1;
        emit(ACK);
        return flags & ACK ? TIME_WAIT : CLOSING;
    case FIN_WAIT_2:
        if (!(flags & FIN))
            return state;
        emit(ACK);
        return TIME_WAIT;
    case CLOSING:
        return flags & ACK ? TIME_WAIT : CLOSING;
    case LAST_ACK:
        return flags & ACK ? CLOSED : LAST_ACK;
    case CLOSED:
        goto reset;
    }
    return state;
reset:
    emit(RST);
    return CLOSED;
}
