// How many bits of a byte are set. Clang leaves the loop as it is, so only a load that unrolls loops accepts it: loop.o is for the tests.
//
//     clang -O2 -g -fdebug-prefix-map="$PWD"=. -target bpfel -mcpu=v3 -c loop.c && llvm-strip -g loop.o
unsigned long bits(const unsigned char *byte)
{
    unsigned long set = 0;
#pragma clang loop unroll(disable)
    for (int i = 0; i < 8; i++)
        set += *byte >> i & 1;
    return set;
}
