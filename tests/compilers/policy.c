// Whether a request is let through: 0 it isn't, 1 it is, 2 it is and is written down, for which its user and path are emitted.
//
// The context is the request. All that is decided meets at one place, and what is rare is tested first.
//
// context 6, held 0
// policy.gcc.hex: gcc 12.2.0, bpf-gcc -O1 -ffreestanding
#include "helpers.h"

enum { USER, GROUP, VERB, PATH, HOUR, SECURE };
enum { DENY, ALLOW, AUDIT };
enum { READ, WRITE, REMOVE };
enum { ROOT = 0, OPERATORS = 7, PUBLIC = 100 };

number policy(const byte *request)
{
    number verdict = DENY;
    if (unlikely(request[USER] == ROOT)) {
        emit(request[VERB]);
        verdict = AUDIT;
        goto decided;
    }
    if (request[VERB] == READ && request[PATH] < PUBLIC) {
        verdict = ALLOW;
        goto decided;
    }
    if (unlikely(!request[SECURE])) {
        emit(request[USER]);
        goto decided;
    }
    if (request[VERB] == WRITE) {
        if (request[GROUP] == OPERATORS || request[PATH] == request[USER])
            verdict = ALLOW;
        else if (request[HOUR] >= 9 && request[HOUR] < 17)
            verdict = AUDIT;
    } else if (request[VERB] == REMOVE && request[GROUP] == OPERATORS) {
        verdict = AUDIT;
    }
decided:
    if (verdict == AUDIT)
        emit((number)request[USER] << 8 | request[PATH]);
    return verdict;
}
