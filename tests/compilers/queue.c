// Which queue an IPv4 packet waits in, from 0 for what may wait to 3 for what may not. For all but the last it is emitted, or the
// protocol if no rule is for it.
//
// The context is the first 24 bytes of the packet: its header and the two ports.
//
// context 24, held 0
// queue.clang.hex: clang 14.0.6, clang -Os -target bpfel -mcpu=v2
// queue.gcc.hex: gcc 12.2.0, bpf-gcc -O2 -ffreestanding
#include "helpers.h"

enum { VERSION_AND_LENGTH = 0, SERVICE = 1, PROTOCOL = 9, PORT = 22 };
enum { TCP = 6, UDP = 17 };
enum { SCAVENGER = 8, EXPEDITED = 46 };
enum { FTP_DATA = 20, SSH = 22, DNS = 53, RSYNC = 873 };
enum { BULK, NORMAL, FAST, VOICE };

number queue(const byte *packet)
{
    number queue = NORMAL;
    byte service = packet[SERVICE] >> 2;
    if (unlikely(packet[VERSION_AND_LENGTH] != 0x45))
        goto other;
    if (service == EXPEDITED)
        return VOICE;
    switch (packet[PROTOCOL]) {
    case TCP: {
        word port = packet[PORT] << 8 | packet[PORT + 1];
        if (port == SSH || port == DNS)
            queue = FAST;
        else if (port == FTP_DATA || port == RSYNC)
            queue = BULK;
        break;
    }
    case UDP:
        queue = FAST;
        break;
    default:
        goto other;
    }
    if (unlikely(service == SCAVENGER))
        queue = BULK;
    emit(queue);
    return queue;
other:
    emit(packet[PROTOCOL]);
    return BULK;
}
