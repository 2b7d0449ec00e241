// The mean of three readings of a sensor. One that is out of range is emitted, and taken as the nearest that is in it.
//
// The context is the readings, a byte each.
//
// context 3, held 0
// reading.gcc.hex: gcc 12.2.0, bpf-gcc -O2 -ffreestanding
#include "helpers.h"

enum { LEAST = 20, MOST = 200 };

inlined number mended(number reading)
{
    if (unlikely(reading < LEAST)) {
        emit(reading);
        reading = LEAST;
    }
    if (unlikely(reading > MOST)) {
        emit(reading);
        reading = MOST;
    }
    return reading;
}

number reading(const byte *readings)
{
    number sum = mended(readings[0]);
    sum += mended(readings[1]);
    sum += mended(readings[2]);
    return sum / 3;
}
