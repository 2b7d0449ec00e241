// Keeps IPv4 packets that go to a port from 8000 to 8999, by TCP or by UDP: what tcpdump keeps by
// "ip and (tcp or udp) and dst portrange 8000-8999". The context is the first 78 bytes of an Ethernet frame, or more.
//
//     clang -O2 -g -fdebug-prefix-map="$PWD"=. -target bpfel -mcpu=v3 -c ports.c
typedef unsigned char byte;
typedef unsigned int word;

enum { TYPE = 12, HEADER = 14, FRAGMENT = HEADER + 6, PROTOCOL = HEADER + 9, TO_PORT = HEADER + 2 };
enum { IPV4 = 0x0800, TCP = 6, UDP = 17 };

static word half_at(const byte *bytes)
{
    return (word)bytes[0] << 8 | bytes[1];
}

int ports(const byte *frame)
{
    if (half_at(frame + TYPE) != IPV4)
        return 0;
    // only the first fragment of a packet has the ports
    if ((half_at(frame + FRAGMENT) & 0x1fff) != 0)
        return 0;
    if (frame[PROTOCOL] != TCP && frame[PROTOCOL] != UDP)
        return 0;
    word header_length = (frame[HEADER] & 15) * 4;
    word port = half_at(frame + TO_PORT + header_length);
    return 8000 <= port && port <= 8999;
}
