/* Batches of long programs, whose runs go on four together as long as they do the same: each run does what it does by itself, on contexts that
 * lead all the same way and on others that part at any branch, in batches of any length, by a machine and by a worker. The programs are made
 * here: arithmetic, loads of the context, loads and stores of the stack, branches forward, calls that emit. */
#include <assert.h>
#include <stdio.h>
#include <string.h>

#include "ebpf_host.h"

enum { LONGEST = 3000, CONTEXT = 16, MOST = 11, NUMBERS = 64 };

static uint8_t bytes[8 * LONGEST];
static size_t slots;
static uint32_t seed;

static uint32_t any(uint32_t below) {
    seed = seed * 1664525u + 1013904223u;
    return (seed >> 8) % below;
}

static void put(int opcode, int dst, int src, int offset, int32_t immediate) {
    uint8_t slot[8] = {(uint8_t)opcode, (uint8_t)(dst | src << 4), (uint8_t)offset, (uint8_t)(offset >> 8)};
    for (int i = 0; i < 4; i++) slot[4 + i] = (uint8_t)((uint32_t)immediate >> 8 * i);
    memcpy(bytes + 8 * slots++, slot, 8);
}

/* one of the registers that hold numbers */
static int number(void) {
    static const int registers[] = {0, 6, 7, 8};
    return registers[any(4)];
}

/* one slot that leaves a number in each of them */
static void put_simple(void) {
    static const int operations[] = {0x00, 0x10, 0x20, 0x30, 0x40, 0x50, 0x60, 0x70, 0x90, 0xa0, 0xb0, 0xc0};
    static const int sizes[] = {0x10, 0x08, 0x00, 0x18}; /* a byte, two, four, eight */
    int operation = operations[any(12)], width = any(2) ? 4 : 7, size = (int)any(4);
    switch (any(8)) {
    case 0: put(0x61 | sizes[size], number(), 9, (int)any(CONTEXT + 1 - (1u << size)), 0); break;
    case 1: put(0x61 | sizes[size], number(), 10, -8 * (int)(1 + any(4)), 0); break;
    case 2: put(0x63 | sizes[size], 10, number(), -8 * (int)(1 + any(4)), 0); break;
    case 3: put(0x62 | sizes[size], 10, 0, -8 * (int)(1 + any(4)), (int32_t)any(1000)); break;
    case 4: put(0x87 & ~(width == 4 ? 3 : 0), number(), 0, 0, 0); break;
    case 5: put(operation | width | 8, number(), number(), 0, 0); break;
    default: put(operation | width, number(), 0, 0, (int32_t)(1 + any(31)));
    }
}

static void make(size_t length, uint32_t number_of_program) {
    static const int conditions[] = {0x10, 0x20, 0x30, 0x40, 0x50, 0x60, 0x70, 0xa0, 0xb0, 0xc0, 0xd0};
    seed = number_of_program, slots = 0;
    put(0xbf, 9, 1, 0, 0);
    for (int i = 0; i < 4; i++) put(0xb7, i ? 5 + i : 0, 0, 0, (int32_t)any(100000)), put(0x7a, 10, 0, -8 * (i + 1), (int32_t)any(100));
    while (slots < length - 8) {
        if (any(8) == 0) {
            int over = (int)any(4);
            put(conditions[any(11)] | (any(2) ? 5 : 6), number(), 0, over, (int32_t)any(200));
            for (int i = 0; i <= over; i++) put_simple();
        } else if (any(40) == 0) {
            put(0xbf, 1, number(), 0, 0), put(0x85, 0, 0, 0, 3), put(0xb7, 0, 0, 0, (int32_t)any(9));
        } else {
            put_simple();
        }
    }
    put(0x95, 0, 0, 0, 0);
}

static ebpf_program program;
static ebpf_machine machine;
static ebpf_shared shared;
static ebpf_worker worker;

static void load(void) {
    char text[256] = "";
    ebpf_refusal refusal;
    ebpf_status status = ebpf_program_load(&program, bytes, 8 * slots, CONTEXT, 0, text, sizeof text, &refusal);
    if (status != EBPF_DONE) printf("%s", text);
    assert(status == EBPF_DONE);
}

/* each run of a batch reports what the run by itself does, with so many contexts that differ in a byte, in all, or in none */
static void compare(size_t count, int differs) {
    uint8_t contexts[MOST * CONTEXT];
    ebpf_report alone[MOST], of_machine[MOST], of_worker[MOST];
    uint64_t output[NUMBERS];
    size_t done = 0;
    for (size_t i = 0; i < sizeof contexts; i++) contexts[i] = i < CONTEXT || differs == 2 ? (uint8_t)any(256) : contexts[i - CONTEXT];
    if (differs == 1) contexts[any((uint32_t)count) * CONTEXT + any(CONTEXT)] ^= (uint8_t)(1 << any(8));
    for (size_t i = 0; i < count; i++)
        assert(ebpf_machine_run(&machine, &program, contexts + i * CONTEXT, CONTEXT, UINT64_MAX, output, NUMBERS, &alone[i]) == EBPF_DONE);
    for (uint64_t limit = UINT64_MAX; limit; limit = limit == UINT64_MAX ? 4096 : 0) {
        memset(of_machine, 0, sizeof of_machine), memset(of_worker, 0, sizeof of_worker);
        assert(ebpf_machine_run_batch(&machine, &program, contexts, count * CONTEXT, limit, of_machine, count, &done) == EBPF_DONE && done == count);
        assert(ebpf_worker_run_batch(&worker, &program, contexts, count * CONTEXT, limit, of_worker, count, &done) == EBPF_DONE && done == count);
        for (size_t i = 0; i < count; i++) {
            const ebpf_report *one = &alone[i], *two = &of_machine[i], *three = &of_worker[i];
            assert(one->exited && two->exited && three->exited && one->executed == two->executed && one->executed == three->executed);
            assert(one->exit == two->exit && one->exit == three->exit && one->outputs == two->outputs && one->outputs == three->outputs);
        }
    }
}

int main(void) {
    static const size_t lengths[] = {60, 200, 2047, 2148, LONGEST};
    size_t programs = 0;
    assert(ebpf_machine_new(&machine, 1) == EBPF_DONE && ebpf_shared_new(&shared, 1, 1) == EBPF_DONE);
    assert(ebpf_worker_open(&worker, &shared) == EBPF_DONE);
    for (size_t i = 0; i < sizeof lengths / sizeof *lengths; i++)
        for (uint32_t one = 0; one < 12; one++, programs++) {
            make(lengths[i], 1 + one);
            load();
            for (size_t count = 1; count <= MOST; count++) compare(count, (int)(count + one) % 3);
            ebpf_program_free(&program);
        }
    ebpf_worker_close(&worker);
    ebpf_machine_free(&machine);
    ebpf_shared_free(&shared);
    printf("%zu programs in batches do what each run does by itself\n", programs);
    return 0;
}
