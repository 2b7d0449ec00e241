/* A host of four threads: each runs one program, which was loaded and verified once, on a machine of its own, by a handle of its own and by
 * one that all use at once. The first handle of the program is freed while they run. */
#include <assert.h>
#include <pthread.h>
#include <stdio.h>

#include "ebpf_host.h"

enum { THREADS = 4, RUNS = 200 };

/* takes a cell, reads the byte of the context, gives the cell back, and returns the byte; 0 if it gets no cell */
static const uint8_t slots[] = {
    0xbf, 0x16, 0, 0, 0, 0, 0, 0, /* r6 = r1 */
    0xb7, 0x01, 0, 0, 0, 0, 0, 0, /* r1 = 0 */
    0x85, 0x00, 0, 0, 1, 0, 0, 0, /* r0 = new(r1) */
    0x15, 0x00, 4, 0, 0, 0, 0, 0, /* if r0 == 0 goto exit */
    0x71, 0x66, 0, 0, 0, 0, 0, 0, /* r6 = *(u8 *)r6 */
    0xbf, 0x01, 0, 0, 0, 0, 0, 0, /* r1 = r0 */
    0x85, 0x00, 0, 0, 2, 0, 0, 0, /* free(r1) */
    0xbf, 0x60, 0, 0, 0, 0, 0, 0, /* r0 = r6 */
    0x95, 0x00, 0, 0, 0, 0, 0, 0, /* exit */
};

struct worker {
    pthread_t thread;
    ebpf_program program;       /* its own handle of the program that all run */
    const ebpf_program *common; /* the handle that all use at once */
    uint64_t sum;
};

static void *work(void *argument) {
    struct worker *worker = argument;
    ebpf_machine machine = {0};
    assert(ebpf_machine_new(&machine, 1) == EBPF_DONE);
    for (int i = 0; i < RUNS; i++) {
        uint8_t context = (uint8_t)i;
        ebpf_program again = {0};
        ebpf_report report;
        assert(ebpf_program_share(&again, i % 2 ? worker->common : &worker->program) == EBPF_DONE);
        const ebpf_program *program = i % 3 == 0 ? &again : i % 3 == 1 ? &worker->program : worker->common;
        assert(ebpf_machine_run(&machine, program, &context, 1, 100, NULL, 0, &report) == EBPF_DONE && report.granted == 1);
        worker->sum += report.exit;
        ebpf_program_free(&again);
    }
    ebpf_machine_free(&machine);
    ebpf_program_free(&worker->program);
    return NULL;
}

int main(void) {
    struct worker workers[THREADS] = {0};
    ebpf_program program = {0}, common = {0};
    ebpf_refusal refusal;
    assert(ebpf_program_load(&program, slots, sizeof slots, 1, 1, NULL, 0, &refusal) == EBPF_DONE);
    assert(ebpf_program_share(&common, &program) == EBPF_DONE);
    for (int i = 0; i < THREADS; i++) assert(ebpf_program_share(&workers[i].program, &program) == EBPF_DONE);
    for (int i = 0; i < THREADS; i++) workers[i].common = &common;
    for (int i = 0; i < THREADS; i++) assert(pthread_create(&workers[i].thread, NULL, work, &workers[i]) == 0);
    ebpf_program_free(&program);
    for (int i = 0; i < THREADS; i++) {
        assert(pthread_join(workers[i].thread, NULL) == 0);
        assert(workers[i].sum == RUNS * (RUNS - 1) / 2 && !workers[i].program.word);
    }
    ebpf_program_free(&common);
    printf("threads: %d ran one program %d times each\n", THREADS, RUNS);
    return 0;
}
