// Which method an HTTP request has: the place of its name in a table, from 1 on, or 0 if it is none of them.
//
// The first two letters leave one name, whose bytes are compared. The context is the first eight bytes of the request.
#include "../include/ebpf_program.h"

// The names with the blank after them, each in a row of its own: an array of pointers to strings would have addresses in it.
static const ebpf_byte names[8][8] = { "", "GET ", "HEAD ", "POST ", "PUT ", "PATCH ", "DELETE ", "OPTIONS " };

// The place of the only name that can begin with two letters, by four bits that differ for all of them.
#define BITS(first, second) ((5 * (first) + (second)) & 15)
static const ebpf_byte places[16] = {
    [BITS('G', 'E')] = 1, [BITS('H', 'E')] = 2, [BITS('P', 'O')] = 3, [BITS('P', 'U')] = 4,
    [BITS('P', 'A')] = 5, [BITS('D', 'E')] = 6, [BITS('O', 'P')] = 7,
};

ebpf_number method(const ebpf_byte *request)
{
    // nothing is known of a byte of a table, so the mask bounds the place
    ebpf_number place = places[BITS(request[0], request[1])] & 7;
#pragma unroll
    for (int i = 0; i < 8; i++)
        if (names[place][i] && names[place][i] != request[i])
            return 0;
    return place;
}
