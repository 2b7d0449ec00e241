// Tables of numbers of each size, and of structs.
#include "../compilers/helpers.h"

static const byte bits[256] = { 0, 1, 1, 2, 1, 2, 2, 3, 1, 2, 2, 3, 2, 3, 3, 4, [128] = 1, [200] = 3, [255] = 8 };
static const half steps[32] = { 7, 5, 3, 60000, [17] = 12, [31] = 9 };
static const word primes[16] = { 2, 3, 5, 7, 11, 13, 17, 19, 23, 29, 31, 37, 41, 43, 47, 4000000007u };
static const number powers[8] = { 1, 10, 100, 1000, 10000, 100000, 1000000, ~0ul };
static const signed char turns[8] = { -1, 0, 1, -128, 127, 5, -5, 2 };

struct service { word address; half port; byte kind; };
static const struct service services[4] = { { 1, 22, 3 }, { 4, 80, 6 }, { 7, 443, 9 }, { 10, 65535, 12 } };

const word shared_table[8] = { 9, 8, 7, 6, 5, 4, 3, 2 };

// How many bits are set, by a table of bytes.
// context 4, held 0
number bits_by_table(const byte *bytes)
{
    return bits[bytes[0]] + bits[bytes[1]] + bits[bytes[2]] + bits[bytes[3]];
}

// A sum out of tables of 1, 2, 4 and 8 bytes, which lie in one section.
// context 4, held 0
number sum_of_four_tables(const byte *bytes)
{
    return bits[bytes[0]] + steps[bytes[1] & 31] + primes[bytes[2] & 15] + powers[bytes[3] & 7];
}

// A table of signed bytes.
// context 2, held 0
number sum_of_turns(const byte *bytes)
{
    return turns[bytes[0] & 7] + 2l * turns[bytes[1] & 7];
}

// Fields of a table of structs.
// context 2, held 0
number port_of_a_service(const byte *bytes)
{
    const struct service *service = &services[bytes[0] & 3];
    return service->kind == bytes[1] ? service->port : service->address;
}

// A table that other files could use, at two places.
// context 2, held 0
number difference_in_a_shared_table(const byte *bytes)
{
    return shared_table[bytes[0] & 7] - shared_table[bytes[1] & 7];
}

// An index that is moved: compilers point in front of the table.
// context 1, held 0
number of_a_moved_index(const byte *bytes)
{
    word at = bytes[0] & 15;
    return at < 4 ? 0 : primes[at - 4] + (at < 12 ? steps[at + 8] : 1);
}

// An entry that is always the same one, which is read from memory.
// context 1, held 0
number of_a_known_entry(const byte *bytes)
{
    return bytes[0] + ((const volatile word *)primes)[3];
}

// A table is used on one branch only, and the context after it.
// context 8, held 0
number table_on_a_branch(const byte *bytes)
{
    number sum = bytes[7];
    if (bytes[0] > 99)
        sum += powers[bytes[1] & 7];
    return sum * 3 + bytes[2];
}

// The table's entries are added to a number for each byte of a record, which the function holds.
// context 4, held 1
number kept_in_a_record(const byte *bytes)
{
    number *record = new(1);
    if (!record)
        return 1;
    record[0] = primes[bytes[0] & 15];
    record[1] = record[0] + steps[bytes[1] & 31];
    emit(record[1]);
    number last = record[1];
    free(record);
    return last;
}
