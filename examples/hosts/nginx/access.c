// Whether a request is allowed: 1, or another number, which says why it isn't. The context is the 24 bytes that nginx-ebpf makes of a request.
//
//     clang -O2 -g -fdebug-prefix-map="$PWD"=. -target bpfel -mcpu=v3 -c access.c
//
// Pages for the staff are for addresses of its own networks. A client may try to log in ten times a minute: a table on the shelf of blocks, which
// the host puts there, counts how often each did, whichever thread asked. One run has it at a time, so the count is exact; a run that doesn't find
// it in 64 turns refuses the attempt.
#include "../../../include/ebpf_program.h"

enum method { OTHER, GET, HEAD, POST, PUT, DELETE, OPTIONS, PATCH };
enum zone { PUBLIC, STAFF, LOGIN }; // as the configuration of nginx numbers its locations
enum verdict { REFUSED, ALLOWED, BY_METHOD, BY_NETWORK, BY_RATE, BUSY };
enum { MOST_A_MINUTE = 10, LAYOUT = 1, COUNTS = 64, TURNS = 64 };

struct request {
    ebpf_byte address[16]; // of IPv6; one of IPv4 is ::ffff:a.b.c.d
    ebpf_word second;      // since 1970
    ebpf_half zone;
    ebpf_byte method, unused;
};

struct network {
    ebpf_word address, mask;
};

static const struct network networks[4] = {
    {0x7f000000, 0xff000000}, // 127.0.0.0/8
    {0x0a000000, 0xff000000}, // 10.0.0.0/8
    {0xac100000, 0xfff00000}, // 172.16.0.0/12
    {0xc0a80000, 0xffff0000}, // 192.168.0.0/16
};

EBPF_INLINE ebpf_word word_at(const ebpf_byte *bytes)
{
    return (ebpf_word)bytes[0] << 24 | (ebpf_word)bytes[1] << 16 | (ebpf_word)bytes[2] << 8 | bytes[3];
}

EBPF_INLINE int is_ipv4(const struct request *request)
{
    return word_at(request->address) == 0 && word_at(request->address + 4) == 0 && word_at(request->address + 8) == 0xffff;
}

EBPF_INLINE int is_inside(const struct request *request)
{
    if (!is_ipv4(request))
        return 0;
    ebpf_word address = word_at(request->address + 12);
    for (int i = 0; i < 4; i++)
        if ((address & networks[i].mask) == networks[i].address)
            return 1;
    return 0;
}

// which of the 64 counts is the client's: that of its address, or of its network of 64 bits if it is of IPv6. Some clients share one
EBPF_INLINE ebpf_number place(const struct request *request)
{
    ebpf_number client = is_ipv4(request) ? word_at(request->address + 12)
                                          : (ebpf_number)word_at(request->address) << 32 | word_at(request->address + 4);
    return client * 0x9e3779b97f4a7c15 >> 58;
}

// a table has its layout and its minute in the first two words, and the counts in the last 64
EBPF_INLINE void begin(ebpf_block *table, ebpf_word minute)
{
    table->words[0] = LAYOUT;
    table->words[1] = minute;
    for (int i = COUNTS / 2; i < COUNTS; i++)
        table->numbers[i] = 0;
}

// counts an attempt in the table, if no other run has it: whether it is allowed
EBPF_INLINE enum verdict attempt(const struct request *request)
{
    ebpf_number own = COUNTS + place(request);
    ebpf_word minute = request->second / 60;
#pragma clang loop unroll(disable) // the turns would meet with different objects (V19)
    for (int turn = 0; turn < TURNS; turn++) {
        ebpf_block *table = swap(BLOCK, 0);
        if (!table)
            continue;
        if (table->words[0] != LAYOUT || table->words[1] != minute)
            begin(table, minute);
        ebpf_word attempts = ++table->words[own];
        ebpf_block *other = swap(BLOCK, table);
        if (other)
            free(other);
        return attempts <= MOST_A_MINUTE ? ALLOWED : BY_RATE;
    }
    return BUSY;
}

unsigned long allow(const struct request *request)
{
    if (request->zone == STAFF)
        return is_inside(request) ? ALLOWED : BY_NETWORK;
    if (request->method != GET && request->method != HEAD && request->method != POST)
        return BY_METHOD;
    if (request->zone == LOGIN && request->method == POST)
        return attempt(request);
    return ALLOWED;
}
