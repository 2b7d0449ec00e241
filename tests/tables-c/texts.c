// Strings.
#include "../compilers/helpers.h"

// A byte of a string, by an index of the context.
// context 2, held 0
number digit_of_a_text(const byte *bytes)
{
    return "0123456789abcdef"[bytes[0] & 15] * 256 + "0123456789abcdef"[bytes[0] >> 4];
}

// How many bytes agree with those of a text from a place on.
// context 6, held 0
number bytes_that_agree(const byte *bytes)
{
    const char *text = "GET /index.html";
    word from = bytes[4] & 7;
    return (bytes[0] == text[from]) + (bytes[1] == text[from + 1]) + (bytes[2] == text[from + 2]) + (bytes[3] == text[from + 3]);
}

static const char methods[4][8] = { "GET ", "HEAD ", "POST ", "DELETE " };

// Whether a request begins with a method of a table.
// context 5, held 0
number begins_with_a_method(const byte *bytes)
{
    const char *method = methods[bytes[4] & 3];
    return bytes[0] == method[0] && bytes[1] == method[1] && bytes[2] == method[2] && bytes[3] == method[3];
}
