// Loops over an object, and loops that take and give objects.
#include "../compilers/helpers.h"

// Fills a record, and adds up every third byte of it.
// context 8, held 1
number record_filled(const byte *bytes)
{
    byte *record = new(RECORD);
    if (!record)
        return 1;
    for (int i = 0; i < 64; i++)
        record[i] = bytes[i & 7] + i;
    word sum = 0;
    for (int i = 0; i < 64; i += 3)
        sum = sum * 3 + record[i];
    free(record);
    return sum;
}

// Counts 64 bytes by their low six bits, in a record: each index is of the context.
// context 64, held 1
number most_of_64_counts(const byte *bytes)
{
    byte *counts = new(RECORD);
    if (!counts)
        return 1;
    for (int i = 0; i < 64; i++)
        counts[i] = 0;
    for (int i = 0; i < 64; i++)
        counts[bytes[i] & 63]++;
    word most = 0;
    for (int i = 0; i < 64; i++)
        if (counts[i] > most)
            most = counts[i];
    free(counts);
    return most;
}

// Takes a cell in each turn, and frees it; a turn without one is left out.
// context 1, held 1
number cell_in_each_turn(const byte *bytes)
{
    word sum = bytes[0];
    for (int i = 0; i < 8; i++) {
        number *cell = new(CELL);
        if (!cell)
            continue;
        cell[0] = i;
        sum += cell[0] + ((byte *)cell)[0];
        free(cell);
    }
    return sum;
}

// Does so until no cell is granted.
// context 1, held 1
number cells_until_there_is_none(const byte *bytes)
{
    word sum = bytes[0];
    for (int i = 0; i < 8; i++) {
        number *cell = new(CELL);
        if (!cell)
            break;
        cell[0] = i;
        sum += cell[0];
        free(cell);
    }
    return sum;
}

// Holds four cells from one call, with their pointers on the stack, and frees each in a second loop.
// context 1, held 4
number four_cells_held(const byte *bytes)
{
    number *cells[4];
    word count = 0, sum = bytes[0];
    for (count = 0; count < 4; count++) {
        number *cell = new(CELL);
        if (!cell)
            break;
        cell[0] = count + 1;
        cells[count] = cell;
    }
    for (word i = 0; i < count; i++) {
        sum = sum * 10 + cells[i][0];
        free(cells[i]);
    }
    return sum;
}

// Exchanges a cell for what is on the shelf in each turn: what a turn puts there, the next one takes.
// context 4, held 1
number shelf_in_each_turn(const byte *bytes)
{
    word sum = 0;
    for (int i = 0; i < 4; i++) {
        number *cell = new(CELL);
        if (cell)
            cell[0] = bytes[i];
        number *found = swap(CELL, cell);
        if (found) {
            sum += found[0];
            free(found);
        }
    }
    return sum;
}
