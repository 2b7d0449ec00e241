// What becomes of an ICMP message, which is emitted too: 0 it is dropped, 1 it is passed on, 2 it is answered.
//
// The context is the header of the message: type, code, sum and four bytes more. Each code that its type doesn't have leads to one
// exit.
//
// context 8, held 0
// icmp.gcc.hex: gcc 12.2.0, bpf-gcc -Os -ffreestanding
#include "helpers.h"

enum { TYPE, CODE, GATEWAY = 4, SIZE = 6 };
enum { DROP, PASS, ANSWER };
enum { ECHO_REPLY = 0, UNREACHABLE = 3, REDIRECT = 5, ECHO = 8, TIME_EXCEEDED = 11 };
enum { TOO_BIG = 4, LAST_REASON = 15, MALFORMED = 255 };

number icmp(const byte *message)
{
    number verdict = PASS;
    switch (message[TYPE]) {
    case ECHO:
        if (message[CODE] != 0)
            goto malformed;
        verdict = ANSWER;
        break;
    case ECHO_REPLY:
        if (message[CODE] != 0)
            goto malformed;
        break;
    case UNREACHABLE:
        if (message[CODE] > LAST_REASON)
            goto malformed;
        if (message[CODE] == TOO_BIG)
            emit(message[SIZE] << 8 | message[SIZE + 1]);
        break;
    case TIME_EXCEEDED:
        if (message[CODE] > 1)
            goto malformed;
        break;
    case REDIRECT:
        emit(message[GATEWAY]);
        verdict = DROP;
        break;
    default:
        goto malformed;
    }
    emit(verdict);
    return verdict;
malformed:
    emit(MALFORMED);
    return DROP;
}
