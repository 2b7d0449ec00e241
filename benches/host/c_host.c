/* A packet filter, that many times over packets in memory, as a host does it: by the library, or as the C that it was compiled from. The
 * words: the program's slots as hex, how many runs, and `batch` for 64 packets by each call, or `native` for the C itself. It writes the
 * nanoseconds that the runs took. */
#include <stdio.h>
#include <stdlib.h>
#include <string.h>
#include <time.h>

#include "ebpf_host.h"

enum { CONTEXT = 24, PACKETS = 64 };

int filter(const unsigned char *packet);

static uint8_t packets[PACKETS][CONTEXT];

static void fill(void) {
    static const uint8_t ports[] = {0x40, 0x41, 0x42, 0x10, 0x43, 0x44, 0x45, 0x46};
    for (int i = 0; i < PACKETS; i++) {
        uint8_t *packet = packets[i];
        packet[0] = 0x45;
        packet[9] = i % 8 == 5 ? 1 : 6;
        packet[22] = 0x1f;
        packet[23] = ports[i % 8];
    }
}

int main(int count, char **words) {
    if (count < 3) return 2;
    static uint8_t bytes[32768];
    size_t length = strlen(words[1]) / 2;
    for (size_t i = 0; i < length && i < sizeof bytes; i++) sscanf(words[1] + 2 * i, "%2hhx", &bytes[i]);
    unsigned long runs = strtoul(words[2], NULL, 10), taken = 0;
    int is_native = count > 3 && !strcmp(words[3], "native"), is_batch = count > 3 && !is_native;
    ebpf_program program = {0};
    ebpf_machine machine = {0};
    ebpf_refusal refusal;
    ebpf_report report, reports[PACKETS];
    char text[256];
    uint64_t none[1];
    fill();
    if (ebpf_program_load(&program, bytes, length, CONTEXT, 0, text, sizeof text, &refusal) || ebpf_machine_new(&machine, 1)) return 1;
    struct timespec started, ended;
    clock_gettime(CLOCK_MONOTONIC, &started);
    for (unsigned long i = 0; is_batch && i < runs; i += PACKETS) {
        size_t some = runs - i < PACKETS ? runs - i : PACKETS, done;
        if (ebpf_machine_run_batch(&machine, &program, packets[0], some * CONTEXT, UINT64_MAX, reports, some, &done)) return 1;
        for (size_t k = 0; k < some; k++) taken += reports[k].exit;
    }
    for (unsigned long i = 0; !is_batch && i < runs; i++) {
        const uint8_t *packet = packets[i % PACKETS];
        if (is_native) {
            taken += (unsigned long)filter(packet);
        } else {
            if (ebpf_machine_run(&machine, &program, packet, CONTEXT, UINT64_MAX, none, 0, &report)) return 1;
            taken += report.exit;
        }
    }
    clock_gettime(CLOCK_MONOTONIC, &ended);
    printf("%lld\n", (ended.tv_sec - started.tv_sec) * 1000000000ll + ended.tv_nsec - started.tv_nsec);
    ebpf_machine_free(&machine);
    ebpf_program_free(&program);
    return taken == 0 && runs > 0;
}
