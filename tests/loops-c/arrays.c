// Loops over what is on the stack.
#include "../compilers/helpers.h"

// Sorts eight bytes by exchanging neighbours: each index is a constant of its turn.
// context 8, held 0
number sorted_by_exchange(const byte *bytes)
{
    volatile number all[8];
    for (int i = 0; i < 8; i++)
        all[i] = bytes[i];
    for (int i = 0; i < 7; i++) {
        for (int j = 0; j < 7 - i; j++) {
            number first = all[j], second = all[j + 1];
            if (first > second) {
                all[j] = second;
                all[j + 1] = first;
            }
        }
    }
    number sum = 0;
    for (int i = 0; i < 8; i++)
        sum = sum * 17 + all[i];
    return sum;
}

// Sorts them by insertion: an index of a store depends on the bytes.
// context 8, held 0
number sorted_by_insertion(const byte *bytes)
{
    number all[8];
    for (int i = 0; i < 8; i++) {
        number inserted = bytes[i];
        int j = i;
        while (j > 0 && all[j - 1] > inserted) {
            all[j] = all[j - 1];
            j--;
        }
        all[j] = inserted;
    }
    number sum = 0;
    for (int i = 0; i < 8; i++)
        sum = sum * 17 + all[i];
    return sum;
}

// Keeps those of sixteen bytes that are above nine: the place of each depends on how many were kept.
// context 16, held 0
number kept_above_nine(const byte *bytes)
{
    byte kept[16];
    word count = 0, sum = 0;
    for (word i = 0; i < 16; i++)
        if (bytes[i] > 9)
            kept[count++] = bytes[i];
    for (word i = 0; i < count; i++)
        sum = sum * 5 + kept[i];
    return sum;
}

// The product of two matrices of four rows: three loops, one in the other.
// context 32, held 0
number product_of_matrices(const byte *bytes)
{
    word product[16];
    for (int i = 0; i < 4; i++) {
        for (int j = 0; j < 4; j++) {
            word sum = 0;
            for (int k = 0; k < 4; k++)
                sum += bytes[4 * i + k] * bytes[16 + 4 * k + j];
            product[4 * i + j] = sum;
        }
    }
    word sum = 0;
    for (int i = 0; i < 16; i++)
        sum = sum * 7 + product[i];
    return sum;
}

// Keeps its counter on the stack, in four bytes, of which nothing is known when it is read back.
// context 16, held 0
number counter_in_half_a_word(const byte *bytes)
{
    volatile int i;
    number sum = 0;
    for (i = 0; i < 16; i++)
        sum = sum * 3 + bytes[i];
    return sum;
}

// Has more numbers than registers outlive a call in each turn, so some are spilled to the stack, in whole words.
// context 16, held 0
number spilled_numbers(const byte *bytes)
{
    number a = 1, b = 2, c = 3, d = 4, e = 5, f = 6;
    for (word i = 0; i < 12; i++) {
        a = a * 3 + bytes[i];
        b ^= a;
        c += b * a;
        d ^= c + a;
        e += d * b;
        f ^= e + c;
        emit(f);
    }
    return a ^ b ^ c ^ d ^ e ^ f;
}
