// Counts a packet in its class, in a record on a shelf that any number of workers share. The context is the first 24 bytes of an Ethernet
// frame, with zeros after a shorter one. The program returns 0 if it counted the packet, otherwise 1 and the number of its class: there was
// no record to count with. It holds two objects.
//
//     clang -O2 -target bpfel -mcpu=v3 -c packet_classes.c
#include "../../include/ebpf_program.h"

// The numbers of the classes, by which the record on the shelf has its eight counters.
enum class { TCP4, UDP4, OTHER4, TCP6, UDP6, OTHER6, ARP, REST };

// The class of what is in an IPv4 or IPv6 packet, by its protocol; the first three or the next three.
EBPF_INLINE ebpf_number class_in(enum class first, ebpf_byte protocol)
{
    return first + (protocol == 6 ? 0 : protocol == 17 ? 1 : 2);
}

EBPF_INLINE ebpf_number class_of(const ebpf_byte *frame)
{
    ebpf_word type = (ebpf_word)frame[12] << 8 | frame[13];
    return type == 0x0800 ? class_in(TCP4, frame[14 + 9]) : type == 0x86dd ? class_in(TCP6, frame[14 + 6]) : type == 0x0806 ? ARP : REST;
}

unsigned long packet_classes(const ebpf_byte *frame)
{
    ebpf_number class = class_of(frame);
    ebpf_record *counts = new(RECORD);
    if (!counts) return 1 + class;
    for (int i = 0; i < 8; i++) counts->numbers[i] = 0;
    counts->numbers[class] = 1;
    ebpf_add_and_free(RECORD, counts->numbers, swap(RECORD, 0));
    shelve_sums(RECORD, counts);
    return 0;
}
