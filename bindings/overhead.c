/* Runs a program of two slots as often as it is asked: what a run takes in C, beside the bindings of other languages. */
#include <stdio.h>
#include <stdlib.h>

#include "ebpf_host.h"

int main(int count, char **words) {
    const uint8_t slots[16] = {0x61, 0x10, 0, 0, 0, 0, 0, 0, 0x95}; /* reads four bytes of the context and returns them */
    uint64_t runs = count == 2 ? strtoull(words[1], NULL, 10) : 0, sum = 0;
    ebpf_program program = {0};
    ebpf_machine machine = {0};
    ebpf_report report;
    ebpf_refusal refusal;
    if (ebpf_program_load(&program, slots, sizeof slots, 4, 0, NULL, 0, &refusal) || ebpf_machine_new(&machine, 1)) return 1;
    for (uint32_t i = 0; i < runs; i++) {
        if (ebpf_machine_run(&machine, &program, (const uint8_t *)&i, sizeof i, 4096, NULL, 0, &report)) return 1;
        sum += report.exit;
    }
    printf("%llu\n", (unsigned long long)sum);
    ebpf_machine_free(&machine), ebpf_program_free(&program);
    return 0;
}
