// The Internet checksum of an IPv4 header of 20 bytes, which are the context: 0 where the checksum in the header is right.
//
// The loop has a fixed number of turns, so the compiler unrolls it.
typedef unsigned short half;

unsigned checksum(const half *header)
{
    unsigned sum = 0;
#pragma unroll
    for (int i = 0; i < 10; i++)
        sum += header[i];
    // twice, since the first sum of both halves may carry
    sum = (sum & 0xffff) + (sum >> 16);
    sum = (sum & 0xffff) + (sum >> 16);
    return ~sum & 0xffff;
}
