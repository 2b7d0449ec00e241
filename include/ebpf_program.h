// What a C program for eBPF may call and hold. It is for C that clang or gcc compiles for eBPF: the calls become the instruction
// `call` with a helper's number. docs/INSTRUCTIONS.md says what each helper does, and examples/README.md what a program keeps to.
#ifndef EBPF_PROGRAM_H
#define EBPF_PROGRAM_H

typedef unsigned char ebpf_byte;
typedef unsigned short ebpf_half;
typedef unsigned int ebpf_word;
typedef unsigned long ebpf_number;

// The kinds of object, and of the shelves: a shelf is for one kind, and has its number. A kind in a call has to be a constant.
enum ebpf_kind { CELL = 0, RECORD = 1, BLOCK = 2 };

// An object of each kind. When it is new, a cell has the byte 0x00 everywhere, a record 0xff and a block 0x5a.
typedef union {
    ebpf_byte bytes[16];
    ebpf_word words[4];
    ebpf_number numbers[2];
} ebpf_cell;

typedef union {
    ebpf_byte bytes[64];
    ebpf_word words[16];
    ebpf_number numbers[8];
} ebpf_record;

typedef union {
    ebpf_byte bytes[512];
    ebpf_word words[128];
    ebpf_number numbers[64];
} ebpf_block;

#ifdef __clang__
#define EBPF_HELPER(number, result, name, ...) static result (*const name)(__VA_ARGS__) = (result (*)(__VA_ARGS__))number
#else
#define EBPF_HELPER(number, result, name, ...) result name(__VA_ARGS__) __attribute__((kernel_helper(number)))
#endif

EBPF_HELPER(1, void *, ebpf_helper_new, ebpf_number kind);
EBPF_HELPER(2, ebpf_number, ebpf_helper_free, void *object);
EBPF_HELPER(3, ebpf_number, ebpf_helper_emit, ebpf_number n);
EBPF_HELPER(4, void *, ebpf_helper_swap, ebpf_number shelf, void *given);

#define EBPF_INLINE static inline __attribute__((always_inline, unused))

// A new object of a kind, or null where none is granted: compare it with null before anything else.
EBPF_INLINE void *new(enum ebpf_kind kind)
{
    return ebpf_helper_new(kind);
}

// Gives an object back. Each object that is held has to be given back, or put onto a shelf, before the program returns.
EBPF_INLINE void free(void *object)
{
    ebpf_helper_free(object);
}

// Writes a number to the output of the run.
EBPF_INLINE void emit(ebpf_number n)
{
    ebpf_helper_emit(n);
}

// Puts an object of its kind onto the shelf of that kind, or nothing where it is null, and gives what stood there, or null. The
// object isn't the run's any more then, and what stood there is.
EBPF_INLINE void *swap(enum ebpf_kind shelf, void *given)
{
    return ebpf_helper_swap(shelf, given);
}

// Whether these bytes come first at an address: starts_with(context, "GET "). The text is a literal of at most 16 bytes; a longer one does
// not compile. Each byte becomes an immediate, so the program needs no string.
#define starts_with(at, text) \
    ebpf_starts_with((const ebpf_byte *)(at), text, sizeof(text) - sizeof(char[sizeof(text) <= 17 ? 1 : -1]))

EBPF_INLINE int ebpf_starts_with(const ebpf_byte *at, const char *text, ebpf_number length)
{
    int same = 1;
#define EBPF_SAME(n) if (n < length) same &= at[n] == (ebpf_byte)text[n];
    EBPF_SAME(0) EBPF_SAME(1) EBPF_SAME(2) EBPF_SAME(3) EBPF_SAME(4) EBPF_SAME(5) EBPF_SAME(6) EBPF_SAME(7)
    EBPF_SAME(8) EBPF_SAME(9) EBPF_SAME(10) EBPF_SAME(11) EBPF_SAME(12) EBPF_SAME(13) EBPF_SAME(14) EBPF_SAME(15)
#undef EBPF_SAME
    return same;
}

// The numbers of each kind of object.
EBPF_INLINE ebpf_number ebpf_numbers(enum ebpf_kind kind)
{
    return kind == CELL ? 2 : kind == RECORD ? 8 : 64;
}

#ifdef __clang__
#define EBPF_UNROLL _Pragma("unroll")
#else
#define EBPF_UNROLL _Pragma("GCC unroll 64")
#endif

// Adds the numbers of an object to those of another, gives the first back, and does nothing where it is null.
EBPF_INLINE void ebpf_add_and_free(enum ebpf_kind kind, ebpf_number *sums, ebpf_number *more)
{
    if (more) {
        EBPF_UNROLL
        for (ebpf_number i = 0; i < ebpf_numbers(kind); i++) sums[i] += more[i];
        free(more);
    }
}

// Emits the numbers of an object, and gives it back.
EBPF_INLINE void ebpf_emit_and_free(enum ebpf_kind kind, ebpf_number *sums)
{
    EBPF_UNROLL
    for (ebpf_number i = 0; i < ebpf_numbers(kind); i++) emit(sums[i]);
    free(sums);
}

// Adds the numbers of an object to those on the shelf of its kind, and gives it up. A program that takes an object off a shelf, changes it
// and puts it back loses what another worker put there in between. This one loses nothing: an object that it finds on the shelf is merged
// with what it finds there next, and put back in its turn. After four turns in which others came between, what is left over is emitted,
// number by number. So the numbers on the shelf and those that were emitted add up to all that was given. The program holds two objects at
// a time: --held 2.
EBPF_INLINE void shelve_sums(enum ebpf_kind kind, void *object)
{
    ebpf_number *sums = object;
#define EBPF_SHELVE \
    { \
        ebpf_number *found = swap(kind, sums); \
        if (!found) return; \
        ebpf_add_and_free(kind, found, swap(kind, 0)); \
        sums = found; \
    }
    EBPF_SHELVE EBPF_SHELVE EBPF_SHELVE EBPF_SHELVE
#undef EBPF_SHELVE
    ebpf_emit_and_free(kind, sums);
}

#endif
