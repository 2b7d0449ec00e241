/* Each function of include/ebpf_host.h, but those of workers, with each of its statuses; batches of runs; objects on shelves; programs that are
 * refused, each with its code, from the file that is the first argument; functions of the object files that are the others; programs with loops;
 * handles that go from one thread to another; and each allocation refused in turn: malloc and realloc are those below, by the linker's --wrap. */
#include <assert.h>
#include <pthread.h>
#include <stdio.h>
#include <stdlib.h>
#include <string.h>

#include "ebpf_host.h"

static long left = -1; /* how many allocations are still served; below zero, all */
static int refused;    /* whether one was refused */

void *__real_malloc(size_t size);
void *__real_realloc(void *old, size_t size);
void *__wrap_malloc(size_t size);
void *__wrap_realloc(void *old, size_t size);

static int serves(void) {
    if (left < 0) return 1;
    if (left == 0) {
        refused = 1;
        return 0;
    }
    left--;
    return 1;
}

void *__wrap_malloc(size_t size) { return serves() ? __real_malloc(size) : NULL; }
void *__wrap_realloc(void *old, size_t size) { return serves() ? __real_realloc(old, size) : NULL; }

static ebpf_machine machine;
static ebpf_program program;
static ebpf_report report;
static ebpf_refusal refusal;
static char text[512];
static int unrolls; /* whether loads unroll loops first: of a program without jumps that lead back, both say the same */
static uint64_t output[4];

static size_t bytes_of(const char *digits, uint8_t *bytes) {
    size_t length = strlen(digits) / 2;
    for (size_t i = 0; i < length; i++) sscanf(digits + 2 * i, "%2hhx", &bytes[i]);
    return length;
}

/* Fills what a call may write, so that a later look finds what it wrote. */
static void mark(void) {
    memset(text, 'x', sizeof text), memset(&refusal, 'x', sizeof refusal);
    memset(output, 'x', sizeof output), memset(&report, 'x', sizeof report);
}

static int is_marked(const void *bytes, size_t length) {
    for (size_t i = 0; i < length; i++)
        if (((const char *)bytes)[i] != 'x') return 0;
    return 1;
}

static ebpf_status load(const char *digits, uint32_t context, uint32_t held) {
    uint8_t bytes[512];
    size_t length = bytes_of(digits, bytes);
    mark();
    ebpf_status status = (unrolls ? ebpf_program_load_unrolled : ebpf_program_load)(
        &program, bytes, length, context, held, text, sizeof text, &refusal);
    /* only a refusal is reported, and its sentence ends with a zero */
    assert(status == EBPF_REFUSED ? strlen(text) == refusal.length : is_marked(text, sizeof text) && is_marked(&refusal, sizeof refusal));
    return status;
}

static ebpf_status run(const char *context, uint64_t limit) {
    uint8_t bytes[16];
    size_t length = bytes_of(context, bytes);
    void *words[] = {machine.word, program.word};
    mark();
    ebpf_status status = ebpf_machine_run(&machine, &program, bytes, length, limit, output, 4, &report);
    assert(machine.word == words[0] && program.word == words[1]);
    assert(status == EBPF_DONE || (is_marked(output, sizeof output) && is_marked(&report, sizeof report))); /* nothing was run */
    return status;
}

/* takes a cell, reads back the 5 that it wrote there, and returns it; 0 if it gets none */
#define CELL "b701000000000000850000000100000015000500000000007a00000005000000" \
             "7906000000000000bf010000000000008500000002000000bf600000000000009500000000000000"
/* emits the byte of the context and returns 7 */
#define EMIT "71110000000000008500000003000000b7000000070000009500000000000000"
/* takes what is on the shelf of records, and gives it back */
#define FETCH "b701000001000000b70200000000000085000000040000001500020000000000" \
              "bf010000000000008500000002000000b7000000000000009500000000000000"
/* leaves a record with the byte of the context on the shelf of records, and gives back what was there */
#define LEAVE "7116000000000000b701000001000000850000000100000015000800000000007b60000000000000b701000001000000" \
              "bf0200000000000085000000040000001500020000000000bf010000000000008500000002000000b700000000000000" \
              "9500000000000000"
/* reads four bytes of the context */
#define READ "61100000000000009500000000000000"

static void each_status(void) {
    assert(run("", 9) == EBPF_EMPTY && ebpf_machine_reap(&machine) == EBPF_EMPTY);
    assert(ebpf_machine_new(&machine, 0) == EBPF_PAGES && ebpf_machine_new(&machine, 257) == EBPF_PAGES);
    assert(ebpf_machine_new(&machine, 1) == EBPF_DONE);
    assert(run("", 9) == EBPF_EMPTY);
    assert(load(READ, 4097, 0) == EBPF_DECLARATION && load(READ, 4, 65) == EBPF_DECLARATION);
    assert(load(READ, 4, 256) == EBPF_DECLARATION && load(READ, 4, UINT32_MAX) == EBPF_DECLARATION); /* no number is cut */
    assert(load(READ, 3, 0) == EBPF_REFUSED);
    assert(!strcmp(refusal.code, "V8") && refusal.slot == 0 && refusal.length > 20);
    assert(!strncmp(text, "  slot 0 reads 4 bytes", 22));
    assert(run("000000", 9) == EBPF_EMPTY);

    assert(load(EMIT, 1, 0) == EBPF_DONE);
    assert(run("", 9) == EBPF_CONTEXT);
    assert(run("2a", 9) == EBPF_DONE);
    assert(report.exited && report.exit == 7 && report.executed == 4 && report.peak == 0);
    assert(report.outputs == 1 && output[0] == 42);
    assert(run("2a", 3) == EBPF_DONE);
    assert(!report.exited && report.exit == 0 && report.executed == 3 && report.outputs == 1);

    assert(load(CELL, 0, 1) == EBPF_DONE); /* the other is freed */
    for (int i = 0; i < 3; i++) {
        assert(run("", 100) == EBPF_DONE);
        assert(report.exit == 5 && report.executed == 9 && report.peak == 1 && report.outputs == 0);
        assert(report.granted == 1 && report.refused == 0 && report.fetched == 0 && report.missed == 0);
    }
    assert(load(FETCH, 0, 1) == EBPF_DONE);
    assert(run("", 100) == EBPF_DONE && report.missed == 1 && report.fetched == 0);
    assert(load(CELL, 0, 1) == EBPF_DONE);
    assert(ebpf_machine_reap(&machine) == EBPF_DONE);
    assert(run("", 100) == EBPF_DONE && report.exit == 5);

    ebpf_machine_free(&machine);
    assert(run("", 100) == EBPF_EMPTY);
    ebpf_program_free(&program);
    assert(!machine.word && !program.word);
    ebpf_machine_free(&machine);
    ebpf_program_free(&program);
}

/* a program of the file, which comes after its row */
struct row {
    char code[4];
    uint32_t slot;
    uint32_t context;
    uint32_t held;
    uint32_t length;
};

/* Each program of the file is refused with its code, at its slot. How many there are. */
static unsigned each_refusal(const char *path) {
    static uint8_t bytes[1 << 20];
    struct row row;
    unsigned rows = 0;
    FILE *file = fopen(path, "rb");
    assert(file);
    for (; fread(&row, sizeof row, 1, file) == 1; rows++) {
        assert(row.length <= sizeof bytes && fread(bytes, 1, row.length, file) == row.length);
        memset(&refusal, 0xff, sizeof refusal);
        assert(ebpf_program_load(&program, bytes, row.length, row.context, row.held, text, sizeof text, &refusal) == EBPF_REFUSED);
        assert(!memcmp(refusal.code, row.code, 4) && refusal.slot == row.slot);
    }
    assert(feof(file) && !program.word);
    fclose(file);
    return rows;
}

/* A sentence is cut if there is no more room, and nothing after it is written. If it fits with a zero, that is written too. */
static void a_short_text(void) {
    uint8_t bytes[16];
    size_t length = bytes_of(READ, bytes);
    char room[6] = "......";
    assert(ebpf_program_load(&program, bytes, length, 3, 0, room, 4, &refusal) == EBPF_REFUSED);
    assert(!memcmp(room, "  sl..", 6));
    char fits[256];
    size_t whole = (size_t)refusal.length;
    for (size_t more = 0; more < 3; more++) {
        memset(fits, 'x', sizeof fits);
        assert(ebpf_program_load(&program, bytes, length, 3, 0, fits, whole + more, &refusal) == EBPF_REFUSED && refusal.length == whole);
        assert(fits[whole - 1] == '\n' && fits[whole] == (more ? 0 : 'x') && fits[whole + 1] == 'x');
    }
}

static uint8_t object[1 << 14];
static size_t object_length;

static void read_object(const char *path) {
    FILE *file = fopen(path, "rb");
    assert(file);
    object_length = fread(object, 1, sizeof object, file);
    assert(feof(file));
    fclose(file);
}

static ebpf_status load_function(const char *name, uint32_t context, uint32_t held) {
    mark();
    size_t length = strlen(name);
    ebpf_status status = (unrolls ? ebpf_program_load_elf_unrolled : ebpf_program_load_elf)(
        &program, object, object_length, name, length, context, held, text, sizeof text, &refusal);
    assert(status == EBPF_REFUSED ? strlen(text) == refusal.length : is_marked(text, sizeof text) && is_marked(&refusal, sizeof refusal));
    return status;
}

/* whether a function is refused with a code, at a slot, with a line that begins so */
static int refuses(const char *name, uint32_t context, const char *code, uint32_t slot, const char *line) {
    return load_function(name, context, 0) == EBPF_REFUSED && !strncmp(refusal.code, code, 4) && refusal.slot == slot &&
           refusal.length < sizeof text && text[refusal.length - 1] == '\n' && !strncmp(text, line, strlen(line));
}

/* whether the text ends with this */
static int ends(const char *line) {
    size_t length = strlen(line);
    return refusal.length >= length && !strcmp(text + refusal.length - length, line);
}

/* Under the sentence of a slot that is refused with a context of 15 bytes is its line of C, as far as there is room, and nothing if the
 * file has no lines or they can't be read. */
static void each_line(const char *path, const char *name, const char *code, uint32_t slot, const char *line) {
    char cut[sizeof text];
    read_object(path);
    assert(refuses(name, 15, code, slot, "  slot ") && ends(line) && strchr(text, '\n') == text + refusal.length - strlen(line));
    size_t whole = (size_t)refusal.length;
    for (size_t room = whole - strlen(line); room <= whole; room++) {
        memset(cut, 'x', sizeof cut);
        assert(ebpf_program_load_elf(&program, object, object_length, name, strlen(name), 15, 0, cut, room, &refusal) == EBPF_REFUSED);
        assert(refusal.length == whole && !memcmp(cut, text, room) && is_marked(cut + room, sizeof cut - room));
    }
    uint8_t *table = memmem(object, object_length, ".BTF.ext", 9);
    assert(table);
    table[1] = 'C';
    assert(refuses(name, 15, code, slot, "  slot ") && refusal.length == whole - strlen(line) + 1);
    table[1] = 'B';
    table = memmem(object, object_length, "\x9f\xeb\x01", 3); /* where .BTF begins, or .BTF.ext */
    assert(table);
    table[2] = 2;
    assert(refuses(name, 15, code, slot, "  slot ") && refusal.length == whole - strlen(line) + 1);
}

/* functions with a name and without, the faults of a file, and those of its slots; the files are two.o, table.o, call.o and checksum.o */
static void each_object(char **paths) {
    const char *numbers = "01000000050000000300000004000000";
    assert(ebpf_machine_new(&machine, 1) == EBPF_DONE);
    read_object(paths[0]);
    assert(load_function("checksum", 16, 0) == EBPF_DONE && run(numbers, 100) == EBPF_DONE && report.exit == 13);
    assert(load_function("largest", 16, 64) == EBPF_DONE && run(numbers, 100) == EBPF_DONE && report.exit == 5);
    assert(load_function("checksum", 4097, 0) == EBPF_DECLARATION && load_function("checksum", 16, 65) == EBPF_DECLARATION);
    assert(refuses("", 16, "O3", 0, "  the file has more than one function: name one of checksum, largest\n"));
    assert(refuses("larges", 4097, "O2", 0, "  the file has no function of that name; it has checksum, largest\n"));
    char longest[257];
    memset(longest, 'n', 256), longest[256] = 0;
    assert(refuses(longest, 16, "O1", 0, "  ") && refuses(longest + 1, 16, "O2", 0, "  "));
    assert(refuses("largest", 15, "V8", 7, "  slot 7 reads 4 bytes"));
    object_length = 63;
    assert(refuses("largest", 16, "O1", 0, "  the file has fewer than the 64 bytes of an ELF header\n"));
    object_length = 0;
    assert(refuses("", 16, "O1", 0, "  the file has fewer than the 64 bytes of an ELF header\n"));
    char room[6] = "......";
    assert(ebpf_program_load_elf(&program, object, 0, "", 0, 16, 0, room, 4, &refusal) == EBPF_REFUSED && !memcmp(room, "  th..", 6));
    read_object(paths[2]);
    assert(refuses("entry", 12, "O4", 3, "  slot 3 calls twice, a function of the file: "));
    assert(run(numbers, 100) == EBPF_DONE && report.exit == 5); /* what was loaded last is kept */
    read_object(paths[3]);
    assert(load_function("", 20, 0) == EBPF_DONE && run(numbers, 100) == EBPF_CONTEXT);
    each_line(paths[0], "largest", "V8", 7, "\n  ./two.c:14:7: if (words[i] > most)\n");
    each_line(paths[2], "entry", "O4", 3, "\n  ./call.c:9:10: u64 a = twice(words[0], words[1]);\n");
    ebpf_machine_free(&machine);
    ebpf_program_free(&program);
}

/* the functions of tests/objects/table.c and of host_tables.c, compiled for this machine */
uint64_t weigh(const uint8_t *bytes), of_tables(const uint8_t *bytes), sum_of_primes(const uint8_t *bytes);

/* The loaded function ends on many contexts of 8 bytes as the C does. The bytes are those of a generator with few small numbers. */
static void ends_as(uint64_t (*native)(const uint8_t *)) {
    uint64_t seed = 1;
    for (int i = 0; i < 2000; i++) {
        uint8_t context[8];
        for (int at = 0; at < 8; at++) seed = seed * 6364136223846793005u + 1442695040888963407u, context[at] = (uint8_t)(seed >> 56);
        assert(ebpf_machine_run(&machine, &program, context, 8, 4096, output, 4, &report) == EBPF_DONE);
        assert(report.exited && report.exit == native(context) && report.outputs == 0);
    }
}

/* functions that read tables and strings of their file: the files are table.o and host_tables.o */
static void each_table(const char *one, const char *several) {
    assert(ebpf_machine_new(&machine, 1) == EBPF_DONE);
    for (unrolls = 1; unrolls >= 0; unrolls--) {
        read_object(one);
        assert(load_function("", 1, 0) == EBPF_DONE && run("05", 9) == EBPF_DONE && report.exit == 9 && report.executed == 9);
        assert(run("", 9) == EBPF_CONTEXT && run("0500", 9) == EBPF_CONTEXT && run("0500000000000000", 9) == EBPF_CONTEXT);
        assert(load(READ, 4, 0) == EBPF_DONE && run("07000000", 9) == EBPF_DONE && report.exit == 7); /* without data, on the same machine */
        assert(load_function("weigh", 8, 64) == EBPF_DONE);
        ends_as(weigh);
        assert(load_function("", 4097, 0) == EBPF_DECLARATION && load_function("", 1, 65) == EBPF_DECLARATION);
        assert(load_function("weight", 1, 0) == EBPF_REFUSED && !strcmp(refusal.code, "O2"));
        assert(load_function("", 4064, 0) == EBPF_DONE); /* and 32 bytes of data */
        assert(refuses("", 4065, "O5", 0, "  the context has 4065 bytes and the data 32, more than 4096 together: .rodata.cst32 has 32\n"));
        read_object(several);
        assert(refuses("beyond", 8, "V8", 6, "  slot 6 reads 4 bytes") && ends("\n  ./host_tables.c:31:12: return primes[bytes[0]] + 1;\n"));
        assert(load_function("of_tables", 8, 0) == EBPF_DONE);
        ends_as(of_tables);
    }
    unrolls = 0;
    assert(load_function("sum_of_primes", 8, 0) == EBPF_REFUSED && refusal.code[0] == 'F');
    unrolls = 1;
    assert(load_function("sum_of_primes", 8, 0) == EBPF_DONE);
    ends_as(sum_of_primes);
    unrolls = 0;
    ebpf_machine_free(&machine);
    ebpf_program_free(&program);
}

/* counts down from 3 in a loop, and returns 0 */
#define COUNT "b70000000300000017000000010000005500feff000000009500000000000000"
/* counts down from 9999 */
#define LONG "b70000000f27000017000000010000005500feff000000009500000000000000"
/* counts up without end */
#define ENDLESS "b70200000000000007020000010000000500feff000000009500000000000000"
/* goes on to its last slot, and back from there to slot 1, which reads four bytes of the context */
#define BACK "0500020000000000611000000000000095000000000000000500fdff00000000"

/* whether a program is refused with a code, at a slot, with this text */
static int stops(const char *digits, uint32_t context, const char *code, uint32_t slot, const char *why) {
    return load(digits, context, 0) == EBPF_REFUSED && !strncmp(refusal.code, code, 4) && refusal.slot == slot && !strcmp(text, why);
}

/* programs with loops, and one that is laid out */
static void each_loop(void) {
    assert(ebpf_machine_new(&machine, 1) == EBPF_DONE);
    assert(load(COUNT, 0, 0) == EBPF_REFUSED && !strcmp(refusal.code, "F3") && refusal.slot == 2);
    assert(load(BACK, 4, 0) == EBPF_REFUSED && !strcmp(refusal.code, "F5") && refusal.slot == 1);
    unrolls = 1;
    assert(load(COUNT, 0, 0) == EBPF_DONE && run("", 100) == EBPF_DONE);
    assert(report.exited && report.exit == 0 && report.executed == 8); /* without a jump from turn to turn */
    assert(load(COUNT, 4097, 0) == EBPF_DECLARATION && load("00", 0, 65) == EBPF_DECLARATION);
    assert(stops("00", 0, "I1", 0, "  there is 1 byte: a program is one or more whole slots of 8 bytes\n"));
    assert(stops(LONG, 0, "F3", 2, "  slot 2 goes back to slot 1: after 2048 turns the program would have more than 4096 slots\n"
                                   "  slot 2, jne64 r0, 0, -2, leads out of it: r0 was 9998, and is 7952\n"));
    assert(stops(ENDLESS, 0, "F3", 2, "  slot 2 goes back to slot 1: after 2048 turns the program would have more than 4096 slots\n"
                                      "  nothing leads out of it\n"));
    assert(run("", 100) == EBPF_DONE && report.executed == 8); /* what was loaded last is kept */
    assert(load(BACK, 4, 0) == EBPF_DONE && run("07000000", 100) == EBPF_DONE && report.exit == 7 && report.executed == 4);
    assert(stops(BACK, 3, "V8", 2, "  slot 2 reads 4 bytes at [r1+0],  r1 context+0, but the context has 3 bytes: declare a context of 4 bytes\n"));
    ebpf_machine_free(&machine);
    ebpf_program_free(&program);
    unrolls = 0;
}

/* The function `largest` of two.o goes on to its last slot, and back from there to slot 1, and exits at slots 8 and 9: its slot 1 is slot 2
 * of the program that is laid out, and the line of C is that of slot 1. */
static void a_function_laid_out(const char *path) {
    read_object(path);
    uint8_t first[8];
    bytes_of("6112040000000000", first);
    uint8_t *slots = (uint8_t *)memmem(object, object_length, first, 8) + 64;
    assert(!memcmp(slots, first, 8));
    bytes_of("0500090000000000", slots);
    bytes_of("95000000000000009500000000000000" "0500f6ff00000000", slots + 64);
    unrolls = 1;
    assert(refuses("largest", 3, "V8", 2, "  slot 2 reads 4 bytes") && ends("\n  ./two.c:12:13: u64 most = words[0];\n"));
    unrolls = 0;
    assert(refuses("largest", 3, "F5", 1, "  slot 1 cannot be reached"));
}

/* the function `adler` of the examples, whose loop has as many turns as its context says; the checksum is published for this text */
static void a_function_unrolled(const char *path) {
    const uint8_t context[33] = "\x09Wikipedia";
    read_object(path);
    assert(ebpf_machine_new(&machine, 1) == EBPF_DONE);
    assert(load_function("", sizeof context, 0) == EBPF_REFUSED && refusal.code[0] == 'F');
    unrolls = 1;
    assert(load_function("", sizeof context, 0) == EBPF_DONE && load_function("adler", sizeof context, 0) == EBPF_DONE);
    assert(load_function("adle", sizeof context, 0) == EBPF_REFUSED && !strcmp(refusal.code, "O2"));
    assert(ebpf_machine_run(&machine, &program, context, sizeof context, 4096, NULL, 0, &report) == EBPF_DONE);
    assert(report.exited && report.exit == 0x11e60398);
    ebpf_machine_free(&machine);
    ebpf_program_free(&program);
    unrolls = 0;
}

/* The load of a function with n allocations served answers want of memory and leaves the handle empty, or answers this. Whether one
 * was refused. */
static int function_served(const char *name, long allocations, ebpf_status status) {
    refused = 0;
    left = allocations;
    ebpf_status loaded = load_function(name, 16, 0);
    left = -1;
    assert(refused ? loaded == EBPF_NO_MEMORY : loaded == status);
    assert((loaded == EBPF_DONE) == !!program.word);
    ebpf_program_free(&program);
    return refused;
}

/* The allocations of the load of a function, one after another, are refused. How many there are. */
static long each_allocation(const char *name, ebpf_status status) {
    long allocations = 0;
    while (function_served(name, allocations, status)) allocations++;
    return allocations;
}

/* The first run of a program with data, with n allocations served. Whether one was refused. */
static int run_served(long allocations) {
    assert(ebpf_machine_new(&machine, 1) == EBPF_DONE);
    refused = 0;
    left = allocations;
    ebpf_status status = run("05000000000000000000000000000000", 100);
    left = -1;
    assert(status == (refused ? EBPF_NO_MEMORY : EBPF_DONE));
    assert(run("05000000000000000000000000000000", 100) == EBPF_DONE && report.exit == 9);
    ebpf_machine_free(&machine);
    return refused;
}

/* The allocations of loads of functions that read data, as they are and unrolled, of one that is refused, and of a run. */
static long each_allocation_of_tables(const char *one, const char *several) {
    read_object(several);
    unrolls = 1;
    long of_loop = each_allocation("sum_of_primes", EBPF_DONE);
    unrolls = 0;
    long of_tables = each_allocation("of_tables", EBPF_DONE), of_refusal = each_allocation("sum_of_primes", EBPF_REFUSED), of_run = 0;
    read_object(one);
    assert(load_function("", 16, 0) == EBPF_DONE);
    while (run_served(of_run)) of_run++;
    ebpf_program_free(&program);
    assert(of_loop > 10 && of_tables > 10 && of_refusal > 10 && of_run > 0);
    return of_loop + of_tables + of_refusal + of_run;
}

/* two handles of one program, freed in either order; a full handle lets go of what it held */
static void shares(void) {
    ebpf_program other = {0}, none = {0};
    assert(ebpf_machine_new(&machine, 1) == EBPF_DONE);
    assert(ebpf_program_share(&other, &none) == EBPF_EMPTY && !other.word && !none.word);
    for (int order = 0; order < 2; order++) {
        assert(load(CELL, 0, 1) == EBPF_DONE && ebpf_program_share(&other, &program) == EBPF_DONE);
        assert(other.word != program.word && run("", 100) == EBPF_DONE && report.exit == 5);
        ebpf_program *first = order ? &other : &program, *last = order ? &program : &other;
        ebpf_program_free(first);
        assert(!first->word && last->word);
        assert(ebpf_machine_run(&machine, first, NULL, 0, 100, NULL, 0, &report) == EBPF_EMPTY);
        assert(ebpf_machine_run(&machine, last, NULL, 0, 100, NULL, 0, &report) == EBPF_DONE && report.exit == 5);
        ebpf_program_free(last);
        assert(!last->word);
    }
    assert(load(CELL, 0, 1) == EBPF_DONE && ebpf_program_share(&other, &program) == EBPF_DONE);
    assert(load(EMIT, 1, 0) == EBPF_DONE && ebpf_program_share(&other, &none) == EBPF_EMPTY);
    assert(ebpf_machine_run(&machine, &other, NULL, 0, 100, NULL, 0, &report) == EBPF_DONE && report.exit == 5);
    assert(ebpf_program_share(&other, &program) == EBPF_DONE); /* the last handle of the first program */
    assert(ebpf_machine_run(&machine, &other, (const uint8_t *)"*", 1, 100, output, 4, &report) == EBPF_DONE && output[0] == '*');
    assert(ebpf_program_share(&program, &other) == EBPF_DONE); /* what it shares already */
    assert(run("2b", 100) == EBPF_DONE && report.exit == 7 && output[0] == 43);
    ebpf_program_free(&other);
    ebpf_program_free(&program);
    ebpf_machine_free(&machine);
}

/* a null pointer with length 0, for each pointer that has a length */
static void no_items(void) {
    uint8_t bytes[128];
    assert(ebpf_program_load(&program, NULL, 0, 0, 0, text, sizeof text, &refusal) == EBPF_REFUSED);
    uint64_t length = refusal.length;
    memset(&refusal, 0, sizeof refusal);
    assert(ebpf_program_load(&program, NULL, 0, 0, 0, NULL, 0, &refusal) == EBPF_REFUSED);
    assert(!strcmp(refusal.code, "I1") && refusal.slot == 0 && refusal.length == length && !program.word);
    assert(ebpf_program_load(&program, bytes, bytes_of(READ, bytes), 3, 0, NULL, 0, &refusal) == EBPF_REFUSED);
    assert(!strcmp(refusal.code, "V8") && refusal.length > 20);
    assert(ebpf_program_load_elf(&program, NULL, 0, NULL, 0, 0, 0, NULL, 0, &refusal) == EBPF_REFUSED && !strcmp(refusal.code, "O1"));
    assert(ebpf_program_load_unrolled(&program, NULL, 0, 0, 0, NULL, 0, &refusal) == EBPF_REFUSED && !strcmp(refusal.code, "I1"));
    assert(ebpf_program_load_elf_unrolled(&program, NULL, 0, NULL, 0, 0, 0, NULL, 0, &refusal) == EBPF_REFUSED && !strcmp(refusal.code, "O1"));
    assert(ebpf_machine_new(&machine, 1) == EBPF_DONE);
    assert(ebpf_program_load(&program, bytes, bytes_of(CELL, bytes), 0, 1, NULL, 0, &refusal) == EBPF_DONE);
    assert(ebpf_machine_run(&machine, &program, NULL, 0, 100, output, 4, &report) == EBPF_DONE && report.exit == 5);
    assert(ebpf_machine_run(&machine, &program, NULL, 0, 100, NULL, 0, &report) == EBPF_DONE && report.exit == 5);
    assert(ebpf_program_load(&program, bytes, bytes_of(EMIT, bytes), 1, 0, NULL, 0, &refusal) == EBPF_DONE);
    assert(ebpf_machine_run(&machine, &program, NULL, 0, 100, NULL, 0, &report) == EBPF_CONTEXT);
    assert(ebpf_machine_run(&machine, &program, bytes, 1, 100, NULL, 0, &report) == EBPF_DONE && report.outputs == 1);
    ebpf_program_free(&program);
    ebpf_machine_free(&machine);
}

/* what a shelf has, byte by byte: these bytes, and the fill of its kind after them */
static int has(const uint8_t *there, size_t size, const char *bytes, uint8_t fill) {
    size_t length = strlen(bytes);
    for (size_t i = 0; i < size; i++)
        if (there[i] != (i < length ? (uint8_t)bytes[i] : fill)) return 0;
    return 1;
}

/* Objects that a host leaves on the shelf of a kind, and takes from there. */
static void each_shelf(uint32_t kind, size_t size, uint8_t fill) {
    uint8_t there[520], bytes[520] = {0};
    bool replaced, found;
    memset(there, 'x', sizeof there);
    assert(ebpf_machine_take(&machine, kind, there, sizeof there, &found) == EBPF_DONE && !found && is_marked(there, sizeof there));
    assert(ebpf_machine_put(&machine, kind, (const uint8_t *)"one", 3, &replaced) == EBPF_DONE && !replaced);
    assert(ebpf_machine_put(&machine, kind, (const uint8_t *)"other", 5, &replaced) == EBPF_DONE && replaced);
    assert(ebpf_machine_put(&machine, kind, bytes, size + 1, &replaced) == EBPF_LENGTH && replaced);
    assert(ebpf_machine_take(&machine, kind, there, sizeof there, &found) == EBPF_DONE && found);
    assert(has(there, size, "other", fill) && is_marked(there + size, sizeof there - size));
    assert(ebpf_machine_take(&machine, kind, there, sizeof there, &found) == EBPF_DONE && !found);
    assert(ebpf_machine_put(&machine, kind, NULL, 0, &replaced) == EBPF_DONE && !replaced);
    memset(there, 'x', sizeof there);
    assert(ebpf_machine_take(&machine, kind, there, 4, &found) == EBPF_DONE && found && has(there, 4, "", fill) && there[4] == 'x');
    assert(ebpf_machine_put(&machine, kind, bytes, size, &replaced) == EBPF_DONE && !replaced);
    assert(ebpf_machine_take(&machine, kind, NULL, 0, &found) == EBPF_DONE && found);
}

/* Shelves, as a host and programs use them. */
static void shelves(void) {
    uint8_t there[64] = {0};
    bool replaced = true, found = true;
    assert(ebpf_machine_put(&machine, EBPF_CELL, there, 0, &replaced) == EBPF_EMPTY && replaced);
    assert(ebpf_machine_take(&machine, EBPF_CELL, there, 64, &found) == EBPF_EMPTY && found);
    assert(ebpf_machine_new(&machine, 1) == EBPF_DONE);
    assert(ebpf_machine_put(&machine, 3, there, 0, &replaced) == EBPF_KIND && replaced);
    assert(ebpf_machine_take(&machine, UINT32_MAX, there, 64, &found) == EBPF_KIND && found);
    const struct { uint32_t kind; size_t size; uint8_t fill; } kinds[] = {{EBPF_CELL, 16, 0}, {EBPF_RECORD, 64, 0xff}, {EBPF_BLOCK, 512, 0x5a}};
    for (int i = 0; i < 3; i++) {
        each_shelf(kinds[i].kind, kinds[i].size, kinds[i].fill);
        assert(ebpf_machine_reap(&machine) == EBPF_DONE); /* the one page is for the next kind */
    }
    /* a program finds what the host has put there, and what it leaves there the host finds */
    assert(ebpf_machine_put(&machine, EBPF_RECORD, (const uint8_t *)"*", 1, &replaced) == EBPF_DONE);
    assert(ebpf_machine_put(&machine, EBPF_CELL, there, 0, &replaced) == EBPF_NO_OBJECT && !replaced);
    assert(load(FETCH, 0, 1) == EBPF_DONE && run("", 100) == EBPF_DONE && report.fetched == 1);
    assert(ebpf_machine_take(&machine, EBPF_RECORD, there, 64, &found) == EBPF_DONE && !found);
    assert(load(LEAVE, 1, 1) == EBPF_DONE && run("61", 100) == EBPF_DONE && report.missed == 1);
    assert(ebpf_machine_take(&machine, EBPF_RECORD, there, 64, &found) == EBPF_DONE && found && there[0] == 'a' && !there[7] && there[8] == 0xff);
    ebpf_program_free(&program);
    ebpf_machine_free(&machine);
}

enum { MOST_RUNS = 64 };

static ebpf_report reports[MOST_RUNS + 1]; /* the last is for no run */
static size_t done;

static ebpf_status run_batch(const void *contexts, size_t length, size_t count, uint64_t limit) {
    void *words[] = {machine.word, program.word};
    memset(reports, 'x', sizeof reports), done = SIZE_MAX;
    ebpf_status status = ebpf_machine_run_batch(&machine, &program, contexts, length, limit, reports, count, &done);
    assert(machine.word == words[0] && program.word == words[1]);
    assert(status == EBPF_DONE ? done == count : status == EBPF_NO_MEMORY ? done < count : done == SIZE_MAX);
    size_t written = done == SIZE_MAX ? 0 : done;
    assert(is_marked(&reports[written], sizeof reports - written * sizeof *reports)); /* nothing else was run */
    return status;
}

/* Batches of runs: each status, no run, one and many; what one run leaves on a shelf, the next one finds. */
static void batches(void) {
    uint32_t numbers[MOST_RUNS];
    uint8_t bytes[MOST_RUNS], there[64];
    bool found;
    for (uint32_t i = 0; i < MOST_RUNS; i++) numbers[i] = 1000 + i * i, bytes[i] = (uint8_t)(i + 1);
    assert(run_batch(numbers, 4, 1, 9) == EBPF_EMPTY);
    assert(ebpf_machine_new(&machine, 1) == EBPF_DONE && run_batch(numbers, 4, 1, 9) == EBPF_EMPTY);
    assert(load(READ, 4, 0) == EBPF_DONE);
    assert(run_batch(numbers, 3, 1, 9) == EBPF_CONTEXT && run_batch(numbers, 8, 1, 9) == EBPF_CONTEXT);
    assert(run_batch(numbers, 4, 0, 9) == EBPF_CONTEXT && run_batch(NULL, 0, 1, 9) == EBPF_CONTEXT);
    assert(run_batch(NULL, 0, 0, 9) == EBPF_DONE);
    assert(ebpf_machine_run_batch(&machine, &program, NULL, 0, 9, NULL, 0, &done) == EBPF_DONE && done == 0);
    for (size_t count = 1; count <= MOST_RUNS; count += MOST_RUNS - 1) {
        assert(run_batch(numbers, 4 * count, count, 9) == EBPF_DONE);
        for (size_t i = 0; i < count; i++) assert(reports[i].exited && reports[i].exit == numbers[i] && reports[i].executed == 2);
    }
    assert(run_batch(numbers, sizeof numbers, MOST_RUNS, 1) == EBPF_DONE); /* each has its own limit */
    for (int i = 0; i < MOST_RUNS; i++) assert(!reports[i].exited && reports[i].exit == 0 && reports[i].executed == 1);

    assert(load(EMIT, 1, 0) == EBPF_DONE && run_batch(bytes, MOST_RUNS, MOST_RUNS, 9) == EBPF_DONE);
    for (int i = 0; i < MOST_RUNS; i++) assert(reports[i].exit == 7 && reports[i].outputs == 1);
    assert(load(CELL, 0, 1) == EBPF_DONE && run_batch(NULL, 0, MOST_RUNS, 100) == EBPF_DONE);
    for (int i = 0; i < MOST_RUNS; i++) assert(reports[i].exit == 5 && reports[i].granted == 1 && reports[i].peak == 1);

    assert(ebpf_machine_reap(&machine) == EBPF_DONE && load(LEAVE, 1, 1) == EBPF_DONE);
    for (int turn = 0; turn < 2; turn++) {
        assert(run_batch(bytes, MOST_RUNS, MOST_RUNS, 100) == EBPF_DONE);
        for (int i = 0; i < MOST_RUNS; i++) {
            uint64_t missed = turn == 0 && i == 0;
            assert(reports[i].exited && reports[i].granted == 1 && reports[i].missed == missed && reports[i].fetched == 1 - missed);
        }
    }
    assert(ebpf_machine_take(&machine, EBPF_RECORD, there, 64, &found) == EBPF_DONE && found && there[0] == MOST_RUNS);
    assert(run_batch(bytes, 1, 1, 100) == EBPF_DONE && reports[0].missed == 1);
    ebpf_program_free(&program);
    assert(run_batch(bytes, 1, 1, 100) == EBPF_EMPTY);
    ebpf_machine_free(&machine);
}

/* each status has a text of its own, and all others have one */
static void status_texts(void) {
    for (ebpf_status one = EBPF_DONE; one <= EBPF_BUSY; one++)
        for (ebpf_status other = one + 1; other <= EBPF_BUSY + 1; other++)
            assert(strcmp(ebpf_status_text(one), ebpf_status_text(other)));
    assert(!strcmp(ebpf_status_text(EBPF_DONE), "done") && !strcmp(ebpf_status_text(EBPF_NO_MEMORY), "out of memory"));
    assert(!strcmp(ebpf_status_text(EBPF_BUSY + 1), "unknown status") && !strcmp(ebpf_status_text(UINT32_MAX), "unknown status"));
}

static void *on_another_thread(void *unused) {
    (void)unused;
    assert(run("", 100) == EBPF_DONE && report.exit == 5);
    ebpf_machine_free(&machine);
    ebpf_program_free(&program);
    return NULL;
}

static void one_thread_after_another(void) {
    pthread_t other;
    assert(ebpf_machine_new(&machine, 2) == EBPF_DONE && load(CELL, 0, 1) == EBPF_DONE && run("", 100) == EBPF_DONE);
    assert(pthread_create(&other, NULL, on_another_thread, NULL) == 0);
    assert(pthread_join(other, NULL) == 0);
}

/* The calls with that many allocations served: each answers want of memory and leaves what was there, or does what it says. Whether one
 * was refused. */
static int served(long allocations) {
    refused = 0;
    left = allocations;
    ebpf_status made = ebpf_machine_new(&machine, 1);
    ebpf_status loaded = load(CELL, 0, 1);
    ebpf_status ran = made == EBPF_DONE && loaded == EBPF_DONE ? run("", 100) : EBPF_NO_MEMORY;
    left = -1;
    assert(made == EBPF_DONE || (made == EBPF_NO_MEMORY && !machine.word));
    assert(loaded == EBPF_DONE || (loaded == EBPF_NO_MEMORY && !program.word));
    assert(ran == EBPF_NO_MEMORY || (report.exited && (report.exit == 5 || (refused && report.exit == 0))));
    if (made == EBPF_DONE && loaded == EBPF_DONE) assert(run("", 100) == EBPF_DONE && report.exit == 5);
    ebpf_machine_free(&machine);
    ebpf_program_free(&program);
    return refused;
}

/* The same of a share, into a handle that holds another program: if it is refused, that program is still there. */
static int shared(long allocations) {
    ebpf_program other = {0};
    assert(ebpf_machine_new(&machine, 1) == EBPF_DONE && load(EMIT, 1, 0) == EBPF_DONE);
    assert(ebpf_program_share(&other, &program) == EBPF_DONE && load(CELL, 0, 1) == EBPF_DONE);
    refused = 0;
    left = allocations;
    ebpf_status status = ebpf_program_share(&other, &program);
    left = -1;
    assert(status == (refused ? EBPF_NO_MEMORY : EBPF_DONE));
    assert(run("", 100) == EBPF_DONE && report.exit == 5);
    ebpf_program_free(&program);
    const char *context = refused ? "*" : "";
    assert(ebpf_machine_run(&machine, &other, (const uint8_t *)context, strlen(context), 100, output, 4, &report) == EBPF_DONE);
    assert(report.exit == (refused ? 7 : 5));
    ebpf_program_free(&other);
    ebpf_machine_free(&machine);
    return refused;
}

/* The same of a batch: the runs before one that finds no memory were done, and a batch of the rest does them. */
static int batch_served(long allocations) {
    const size_t count = 3;
    assert(ebpf_machine_new(&machine, 1) == EBPF_DONE && load(CELL, 0, 1) == EBPF_DONE);
    refused = 0;
    left = allocations;
    ebpf_status status = run_batch(NULL, 0, count, 100);
    left = -1;
    assert(status == EBPF_DONE || (status == EBPF_NO_MEMORY && refused));
    size_t before = done;
    for (size_t i = 0; i < before; i++) assert(reports[i].exited && (reports[i].exit == 5 || (refused && reports[i].refused == 1)));
    assert(run_batch(NULL, 0, count - before, 100) == EBPF_DONE);
    for (size_t i = 0; i < count - before; i++) assert(reports[i].exit == 5);
    ebpf_machine_free(&machine);
    ebpf_program_free(&program);
    return refused;
}

/* The load of a loop with n allocations served, the same. */
static int loop_served(long allocations, const char *digits, ebpf_status status) {
    refused = 0;
    left = allocations;
    ebpf_status loaded = load(digits, 3, 0);
    left = -1;
    assert(refused ? loaded == EBPF_NO_MEMORY : loaded == status);
    assert((loaded == EBPF_DONE) == !!program.word);
    ebpf_program_free(&program);
    return refused;
}

/* The allocations of loads of a loop that is unrolled, and of a program that is refused after it was laid out. */
static long each_allocation_of_loops(void) {
    long of_loop = 0, of_refusal = 0;
    unrolls = 1;
    while (loop_served(of_loop, COUNT, EBPF_DONE)) of_loop++;
    while (loop_served(of_refusal, BACK, EBPF_REFUSED)) of_refusal++;
    unrolls = 0;
    assert(of_loop > 10 && of_refusal > 10);
    return of_loop + of_refusal;
}

/* what a program is, of an empty handle and of programs with and without data, loops and objects */
static void is_about(uint32_t context, uint32_t held, uint32_t slots) {
    void *word = program.word;
    assert(ebpf_program_context(&program) == context && ebpf_program_held(&program) == held && ebpf_program_slots(&program) == slots);
    assert(program.word == word);
}

static void about(const char *of_tables) {
    is_about(0, 0, 0);
    assert(load(EMIT, 1, 0) == EBPF_DONE);
    is_about(1, 0, 4);
    assert(load(CELL, 4096, 64) == EBPF_DONE);
    is_about(4096, 64, strlen(CELL) / 16);
    assert(load(CELL, 3, 0) == EBPF_REFUSED); /* the one before stays */
    is_about(4096, 64, strlen(CELL) / 16);
    unrolls = 1;
    assert(load(COUNT, 3, 0) == EBPF_DONE && ebpf_program_slots(&program) > strlen(COUNT) / 16);
    unrolls = 0;
    read_object(of_tables);
    assert(load_function("", 16, 5) == EBPF_DONE); /* with data, which is no context of the host's */
    is_about(16, 5, 9); /* the slots of the function, and the one in front */
    ebpf_program_free(&program);
    is_about(0, 0, 0);
    assert(!strcmp(ebpf_host_version(), EBPF_HOST_VERSION));
}

/* contexts that are shorter than was declared, on a machine and by a worker: zeros come after them */
static void padded(void) {
    ebpf_shared shared = {0};
    ebpf_worker worker = {0};
    const uint8_t bytes[] = {0x2a, 1, 2, 3, 4};
    assert(ebpf_machine_run_padded(&machine, &program, bytes, 0, 9, NULL, 0, &report) == EBPF_EMPTY);
    assert(ebpf_machine_new(&machine, 1) == EBPF_DONE && ebpf_shared_new(&shared, 1, 1) == EBPF_DONE);
    assert(ebpf_machine_run_padded(&machine, &program, bytes, 1, 9, NULL, 0, &report) == EBPF_EMPTY);
    assert(ebpf_worker_run_padded(&worker, &program, bytes, 1, 9, NULL, 0, &report) == EBPF_EMPTY);
    assert(load(READ, 4, 0) == EBPF_DONE);
    assert(ebpf_worker_run_padded(&worker, &program, bytes, 1, 9, NULL, 0, &report) == EBPF_EMPTY);
    assert(ebpf_worker_run_padded(&worker, &program, bytes, 5, 9, NULL, 0, &report) == EBPF_EMPTY);
    assert(ebpf_worker_open(&worker, &shared) == EBPF_DONE);
    for (size_t length = 0; length <= 5; length++) {
        uint64_t word = 0;
        for (size_t i = 0; i < length && i < 4; i++) word |= (uint64_t)bytes[i] << 8 * i;
        ebpf_status status = length <= 4 ? EBPF_DONE : EBPF_CONTEXT;
        mark();
        assert(ebpf_machine_run_padded(&machine, &program, length ? bytes : NULL, length, 9, NULL, 0, &report) == status);
        assert(status ? is_marked(&report, sizeof report) : report.exit == word && report.executed == 2);
        mark();
        assert(ebpf_worker_run_padded(&worker, &program, length ? bytes : NULL, length, 9, output, 4, &report) == status);
        assert(status ? is_marked(&report, sizeof report) : report.exit == word && report.executed == 2);
    }
    ebpf_worker_close(&worker);
    ebpf_shared_free(&shared);
    ebpf_machine_free(&machine);
    ebpf_program_free(&program);
}

int main(int count, char **words) {
    assert(count == 8);
    for (unrolls = 1; unrolls >= 0; unrolls--) {
        each_status();
        each_object(words + 2);
    }
    unrolls = 0;
    unsigned refusals = each_refusal(words[1]);
    a_short_text();
    each_loop();
    each_table(words[3], words[7]);
    a_function_laid_out(words[2]);
    a_function_unrolled(words[6]);
    shares();
    about(words[3]);
    padded();
    no_items();
    shelves();
    batches();
    status_texts();
    one_thread_after_another();
    long allocations = 0, of_share = 0, of_batch = 0;
    while (served(allocations)) allocations++;
    while (shared(of_share)) of_share++;
    while (batch_served(of_batch)) of_batch++;
    assert(allocations > 10 && of_share > 0 && of_batch > 3);
    read_object(words[2]);
    long loads = each_allocation("largest", EBPF_DONE), faults = each_allocation("", EBPF_REFUSED);
    assert(loads > 5 && faults > 0);
    allocations += loads + faults + of_share + of_batch + each_allocation_of_loops() + each_allocation_of_tables(words[3], words[7]);
    printf("host: %u refused programs, %ld refused allocations, %ld of a share\n", refusals, allocations, of_share);
    return 0;
}
