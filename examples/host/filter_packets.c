/* Counts the packets of a file that a packet filter takes: the filter is verified once, and run on each packet.
 *
 *     filter_packets FILTER PACKETS
 *
 * FILTER has raw instruction slots, as llvm-objcopy -O binary writes them. PACKETS has packets one after another, each after its length
 * as two bytes, the low one first. The filter sees the first 24 bytes of a packet, with zeros after a shorter one. */
#include <stdio.h>
#include <stdlib.h>
#include <string.h>

#include <ebpf_host.h>

enum { CONTEXT = 24, LONGEST = 65535, MAX_PROGRAM = 32768 };

static void fail(const char *what) {
    fprintf(stderr, "filter_packets: %s\n", what);
    exit(1);
}

static void load(ebpf_program *program, const char *path) {
    static uint8_t bytes[MAX_PROGRAM + 1];
    FILE *file = fopen(path, "rb");
    if (!file) fail("the filter can't be opened");
    size_t length = fread(bytes, 1, sizeof bytes, file);
    fclose(file);
    char why[1024];
    ebpf_refusal refusal;
    ebpf_status status = ebpf_program_load(program, bytes, length, CONTEXT, 0, why, sizeof why, &refusal);
    if (status == EBPF_REFUSED) {
        int told = refusal.length < sizeof why ? (int)refusal.length : (int)sizeof why;
        fprintf(stderr, "refused %.4s %u\n%.*s", refusal.code, refusal.slot, told, why);
        exit(2);
    }
    if (status != EBPF_DONE) fail(ebpf_status_text(status));
}

/* The next packet: 1, or 0 at the end of the file. */
static int next(FILE *file, uint8_t context[CONTEXT]) {
    static uint8_t packet[LONGEST];
    int low = getc(file), high = getc(file);
    if (low == EOF) return 0;
    if (high == EOF) fail("the packets end in a length");
    size_t length = (size_t)low | (size_t)high << 8;
    if (fread(packet, 1, length, file) != length) fail("the packets end in a packet");
    memset(context, 0, CONTEXT);
    memcpy(context, packet, length < CONTEXT ? length : CONTEXT);
    return 1;
}

int main(int count, char **words) {
    if (count != 3) fail("usage: filter_packets FILTER PACKETS");
    ebpf_program program = {0};
    ebpf_machine machine = {0};
    load(&program, words[1]);
    ebpf_status status = ebpf_machine_new(&machine, 1);
    if (status != EBPF_DONE) fail(ebpf_status_text(status));
    FILE *file = fopen(words[2], "rb");
    if (!file) fail("the packets can't be opened");
    unsigned long taken = 0, all = 0;
    uint8_t context[CONTEXT];
    ebpf_report report;
    while (next(file, context)) {
        status = ebpf_machine_run(&machine, &program, context, CONTEXT, UINT64_MAX, NULL, 0, &report);
        if (status != EBPF_DONE) fail(ebpf_status_text(status));
        taken += report.exit != 0;
        all++;
    }
    fclose(file);
    printf("taken %lu of %lu\n", taken, all);
    ebpf_machine_free(&machine);
    ebpf_program_free(&program);
    return 0;
}
