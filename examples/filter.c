// Takes IPv4 packets without options that go to a port from 8000 to 8999, by TCP or by UDP.
//
// The context is the first 24 bytes of the packet: its header and the two ports. The result is 1 where the packet is taken,
// else 0. Nothing is called and there is no loop, so every jump leads forward.
typedef unsigned char byte;
typedef unsigned short half;

enum { VERSION_AND_LENGTH = 0, FRAGMENT = 6, PROTOCOL = 9, PORT = 22 };
enum { TCP = 6, UDP = 17 };

int filter(const byte *packet)
{
    if (packet[VERSION_AND_LENGTH] != 0x45)
        return 0;
    // only the first fragment of a packet has the ports
    if ((packet[FRAGMENT] & 0x1f) != 0 || packet[FRAGMENT + 1] != 0)
        return 0;
    if (packet[PROTOCOL] != TCP && packet[PROTOCOL] != UDP)
        return 0;
    half port = __builtin_bswap16(*(const half *)(packet + PORT));
    return 8000 <= port && port <= 8999;
}
