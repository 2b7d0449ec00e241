// The helpers: those of a program for eBPF, or functions of native.c if a program is compiled for the machine itself. There nothing is put
// into its caller, so each branch of the C is counted once.
typedef unsigned char byte;
typedef unsigned short half;
typedef unsigned int word;
typedef unsigned long number;

#ifdef __BPF__
#include "../../include/ebpf_program.h"
#define inlined static inline __attribute__((always_inline))
#else
enum { CELL, RECORD, BLOCK };
#define inlined static
#define free give_back
void *new(number kind);
number free(void *object);
number emit(number n);
void *swap(number shelf, void *given);
#endif

#define likely(condition) __builtin_expect(!!(condition), 1)
#define unlikely(condition) __builtin_expect(!!(condition), 0)
