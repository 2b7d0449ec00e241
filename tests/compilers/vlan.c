// What an Ethernet frame carries, after up to two VLAN tags, which are emitted: 4 or 6 for IP, 1 for ARP, 2 for a frame of the old
// form, whose type is a length, otherwise 0.
//
// The context is the first 22 bytes of the frame. A frame with tags is rare, and goes on at the same place as one without.
//
// context 22, held 0
// vlan.clang.hex: clang 14.0.6, clang -O1 -target bpfel -mcpu=v1
// vlan.gcc.hex: gcc 12.2.0, bpf-gcc -O1 -ffreestanding
#include "helpers.h"

enum { INNER = 0x8100, OUTER = 0x88a8, IP = 0x0800, ARP = 0x0806, IP6 = 0x86dd, LEAST = 0x0600 };

inlined word at(const byte *frame, word offset)
{
    return frame[offset] << 8 | frame[offset + 1];
}

number vlan(const byte *frame)
{
    word type = at(frame, 12);
    if (unlikely(type == OUTER)) {
        emit(at(frame, 14) & 0xfff);
        type = at(frame, 16);
        if (type == INNER) {
            emit(at(frame, 18) & 0xfff);
            type = at(frame, 20);
        }
    } else if (unlikely(type == INNER)) {
        emit(at(frame, 14) & 0xfff);
        type = at(frame, 16);
    }
    switch (type) {
    case IP:
        return 4;
    case IP6:
        return 6;
    case ARP:
        return 1;
    }
    return type < LEAST ? 2 : 0;
}
