// The first code point of a text in UTF-8 is emitted: 0, or 1 if there is none, for which U+FFFD is emitted.
//
// The context is the first 4 bytes of the text. There are many ways to be no UTF-8, and one exit for them.
//
// context 4, held 0
// codepoint.clang.hex: clang 14.0.6, clang -O1 -target bpfel -mcpu=v2
// codepoint.gcc.hex: gcc 12.2.0, bpf-gcc -O1 -ffreestanding
#include "helpers.h"

enum { REPLACEMENT = 0xfffd };

inlined int goes_on(byte next)
{
    return (next & 0xc0) == 0x80;
}

number codepoint(const byte *text)
{
    word lead = text[0];
    number point;
    if (likely(lead < 0x80)) {
        point = lead;
        goto found;
    }
    if (lead < 0xc2)
        goto bad;
    if (!goes_on(text[1]))
        goto bad;
    if (lead < 0xe0) {
        point = (lead & 0x1f) << 6 | (text[1] & 0x3f);
        goto found;
    }
    if (!goes_on(text[2]))
        goto bad;
    if (lead < 0xf0) {
        point = (lead & 0x0f) << 12 | (text[1] & 0x3f) << 6 | (text[2] & 0x3f);
        if (point < 0x800 || (point >= 0xd800 && point < 0xe000))
            goto bad;
        goto found;
    }
    if (lead > 0xf4 || !goes_on(text[3]))
        goto bad;
    point = (lead & 0x07) << 18 | (text[1] & 0x3f) << 12 | (text[2] & 0x3f) << 6 | (text[3] & 0x3f);
    if (point < 0x10000 || point > 0x10ffff)
        goto bad;
found:
    emit(point);
    return 0;
bad:
    emit(REPLACEMENT);
    return 1;
}
