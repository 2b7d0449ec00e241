/* Functions that read tables and strings of their file, which tests/host_calls.c loads and also calls. The object file beside this one was made
 * by clang -O2 -g -fdebug-prefix-map="$PWD"=. -target bpfel -mcpu=v3 -c host_tables.c, and llvm-strip -g host_tables.o */
typedef unsigned char byte;
typedef unsigned short half;
typedef unsigned int word;
typedef unsigned long long number;

static const byte bits[256] = {0, 1, 1, 2, 1, 2, 2, 3, 1, 2, 2, 3, 2, 3, 3, 4, [128] = 1, [200] = 3, [255] = 8};
static const half steps[32] = {7, 5, 3, 60000, [17] = 12, [31] = 9};
static const word primes[16] = {2, 3, 5, 7, 11, 13, 17, 19, 23, 29, 31, 37, 41, 43, 47, 4000000007u};
static const number powers[8] = {1, 10, 100, 1000, 10000, 100000, 1000000, ~0ull};

/* tables of 1, 2, 4 and 8 bytes, which are in one section, and a string, which is in another */
number of_tables(const byte *bytes) {
    const char *word = "a longer text than any register has room for";
    return bits[bytes[0]] + steps[bytes[1] & 31] + primes[bytes[2] & 15] + powers[bytes[3] & 7] + (byte)word[bytes[4] & 31];
}

/* a loop that reads a table once a turn */
number sum_of_primes(const byte *bytes) {
    number sum = 0;
    for (word at = 0; at < 8; at++) {
        sum += primes[bytes[at] & 15] * (at + 1);
        __asm__ volatile("" : "+r"(at));
    }
    return sum;
}

/* an index that may be beyond all tables */
number beyond(const byte *bytes) {
    return primes[bytes[0]] + 1;
}
