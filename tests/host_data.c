/* The same function with no data, with 32 bytes and with 1,024, by which tests/host sees what a run costs that has data. The object file beside
 * this one was made by clang -O2 -target bpfel -mcpu=v3 -c host_data.c */
typedef unsigned char byte;
typedef unsigned long long number;

static const byte small[32] = {[1] = 7, [9] = 3, [31] = 9};
static const byte large[1024] = {[1] = 7, [9] = 3, [31] = 9, [1023] = 4};

number of_none(const byte *bytes) {
    return bytes[bytes[0] & 7] + 1;
}

number of_small(const byte *bytes) {
    return small[bytes[0] & 31] + 1;
}

number of_large(const byte *bytes) {
    return large[bytes[0] & 31] + 1;
}
