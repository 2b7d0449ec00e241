/* ebpf_elf_functions over the object files two.o, section.o and call.o of tests/objects, which are the arguments: all functions, fewer than there
 * are, and none; damaged files, and one without memory. Each function that is listed is loaded by its name: whoever reads the list needs no other.
 * malloc and realloc are those below, by the linker's --wrap. */
#include <assert.h>
#include <stdio.h>
#include <stdlib.h>
#include <string.h>

#include "ebpf_host.h"

enum { ROOM = 5 };

static long left = -1; /* how many allocations are still served; below zero, all */

void *__real_malloc(size_t size);
void *__real_realloc(void *old, size_t size);
void *__wrap_malloc(size_t size);
void *__wrap_realloc(void *old, size_t size);

void *__wrap_malloc(size_t size) { return left < 0 || left-- > 0 ? __real_malloc(size) : NULL; }
void *__wrap_realloc(void *old, size_t size) { return left < 0 || left-- > 0 ? __real_realloc(old, size) : NULL; }

static uint8_t object[1 << 14];
static size_t object_length;
static ebpf_function functions[ROOM];
static size_t count;
static char text[256];
static ebpf_refusal refusal;

static void read_object(const char *path) {
    FILE *file = fopen(path, "rb");
    assert(file);
    object_length = fread(object, 1, sizeof object, file);
    assert(feof(file));
    fclose(file);
}

static int is_marked(const void *bytes, size_t length) {
    for (size_t i = 0; i < length; i++)
        if (((const char *)bytes)[i] != 'x') return 0;
    return 1;
}

static ebpf_status list(size_t room) {
    memset(functions, 'x', sizeof functions), memset(&count, 'x', sizeof count);
    memset(text, 'x', sizeof text), memset(&refusal, 'x', sizeof refusal);
    ebpf_status status = ebpf_elf_functions(object, object_length, functions, room, &count, text, sizeof text, &refusal);
    assert(status == EBPF_REFUSED || (is_marked(text, sizeof text) && is_marked(&refusal, sizeof refusal)));
    assert(status == EBPF_DONE || (is_marked(functions, sizeof functions) && is_marked(&count, sizeof count)));
    return status;
}

struct wanted {
    const char *name, *section;
    uint64_t slots;
};

/* whether a field has this text, and zeros to its end */
static int has(const char *field, const char *name) {
    char whole[256] = {0};
    return !memcmp(field, strcpy(whole, name), sizeof whole);
}

/* The file has these functions: as many of them are written as there is room for, and nothing after them. */
static void has_functions(const char *path, const struct wanted *wanted, size_t all) {
    read_object(path);
    for (size_t room = 0; room <= ROOM; room++) {
        size_t written = room < all ? room : all;
        assert(list(room) == EBPF_DONE && count == all && is_marked(functions + written, (ROOM - written) * sizeof *functions));
        for (size_t i = 0; i < written; i++)
            assert(has(functions[i].name, wanted[i].name) && has(functions[i].section, wanted[i].section) && functions[i].slots == wanted[i].slots);
    }
    count = 0;
    assert(ebpf_elf_functions(object, object_length, NULL, 0, &count, NULL, 0, &refusal) == EBPF_DONE && count == all);
}

/* Loads a function that is listed: the status. */
static ebpf_status load(const ebpf_function *function) {
    ebpf_program program = {0};
    ebpf_status status = ebpf_program_load_elf(&program, object, object_length, function->name, strlen(function->name), 16, 0, text,
                                               sizeof text, &refusal);
    assert(status != EBPF_DONE || ebpf_program_slots(&program) == function->slots);
    ebpf_program_free(&program);
    return status;
}

/* The file with each byte changed in turn, by bits and to the greatest: it is listed, or refused with O1. */
static void each_byte(void) {
    for (size_t at = 0; at < object_length; at++) {
        uint8_t byte = object[at];
        for (int turn = 0; turn < 3; turn++) {
            object[at] = turn == 0 ? 0xff : (uint8_t)(byte ^ turn);
            assert(list(ROOM) == EBPF_DONE ? count <= 12 : !strcmp(refusal.code, "O1") && refusal.slot == 0 && strlen(text) == refusal.length);
        }
        object[at] = byte;
    }
}

/* a file that can't be read, as the load says it, and without memory */
static void each_fault(void) {
    const char *why = "  the file has fewer than the 64 bytes of an ELF header\n";
    object_length = 63;
    assert(list(ROOM) == EBPF_REFUSED && !strcmp(refusal.code, "O1") && refusal.slot == 0);
    assert(!strcmp(text, why) && refusal.length == strlen(why));
    object_length = 0;
    assert(list(ROOM) == EBPF_REFUSED && !strcmp(text, why));
    assert(ebpf_elf_functions(NULL, 0, NULL, 0, &count, NULL, 0, &refusal) == EBPF_REFUSED && refusal.length == strlen(why));
    ebpf_status status = EBPF_NO_MEMORY;
    for (long served = 0; status == EBPF_NO_MEMORY; served++) {
        left = served;
        status = list(ROOM);
        left = -1;
        assert(served || status == EBPF_NO_MEMORY);
    }
    assert(status == EBPF_REFUSED);
}

int main(int words, char **paths) {
    assert(words == 4);
    const struct wanted two[] = {{"checksum", ".text", 8}, {"largest", ".text", 11}};
    const struct wanted sections[] = {{"first", "prog/a", 7}, {"second", "prog/a", 5}, {"third", "prog/b", 5}};
    const struct wanted calls[] = {{"twice", ".text", 5}, {"entry", ".text", 10}, {"far", ".text", 4}};
    has_functions(paths[2], sections, 3);
    assert(load(&functions[0]) == EBPF_REFUSED && load(&functions[1]) == EBPF_DONE && load(&functions[2]) == EBPF_DONE);
    has_functions(paths[3], calls, 3);
    assert(load(&functions[1]) == EBPF_REFUSED && !strcmp(refusal.code, "O4"));
    has_functions(paths[1], two, 2);
    assert(load(&functions[0]) == EBPF_DONE && load(&functions[1]) == EBPF_DONE);
    left = 0;
    assert(list(ROOM) == EBPF_DONE && count == 2); /* a file that can be read takes no memory */
    left = -1;
    each_byte();
    object[980] = object[1004] = 0x10; /* neither is a function any more */
    assert(list(ROOM) == EBPF_DONE && count == 0);
    each_fault();
    return 0;
}
