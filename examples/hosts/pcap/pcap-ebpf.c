/* Keeps the packets of a capture for which a program returns another number than 0, as tcpdump keeps those that an expression takes.
 *
 *     gcc -O2 -o pcap-ebpf pcap-ebpf.c $(pkg-config --cflags --libs ebpf_host) -lpcap
 *     pcap-ebpf FILE.o [FUNCTION] -r IN.pcap -w OUT.pcap [-n BYTES] [-c EXPRESSION]
 *
 * The context of a packet is its first BYTES bytes from the link header on, 128 if they aren't given, with zeros after a shorter packet. Packets are
 * judged 64 at a time. What the program leaves on a shelf, the next packet finds there.
 *
 * With -c libpcap judges the same packets by an expression, and standard error says where both differ, and what each took.
 *
 * The status is 0 if the whole capture was filtered, 1 if something failed, and 2 if the command line can't be read. */
#include <pcap/pcap.h>
#include <stdio.h>
#include <stdlib.h>
#include <string.h>
#include <time.h>
#include <unistd.h>

#include <ebpf_host.h>

enum { BATCH = 64, MOST_CONTEXT = 4096, MOST_HELD = 64, MOST_FILE = 1 << 20, PAGES = 64, LIMIT = 4096, NO_MEMORY = -100 };

/* What the command line says. */
struct words {
    const char *file, *function, *in, *out, *expression;
    unsigned long bytes;
};

/* Packets that are judged together: libpcap keeps each only until it reads the next. */
struct batch {
    struct pcap_pkthdr headers[BATCH];
    size_t starts[BATCH]; /* where in bytes each packet begins */
    size_t count, length, room;
    uint8_t *bytes;
    uint8_t contexts[BATCH * MOST_CONTEXT];
    ebpf_report reports[BATCH];
};

/* What judges packets, and what came of it. */
struct filter {
    ebpf_program program;
    ebpf_machine machine;
    size_t context; /* its bytes */
    bool is_compared;
    struct bpf_program expression;
    unsigned long packets, kept, differing;
    double time, time_of_expression; /* in nanoseconds */
};

static int fail(const char *what, const char *why) {
    fprintf(stderr, "pcap-ebpf: %s: %s\n", what, why);
    return 1;
}

static double now(void) {
    struct timespec time;
    clock_gettime(CLOCK_MONOTONIC, &time);
    return (double)time.tv_sec * 1e9 + (double)time.tv_nsec;
}

/* Reads the command line. Whether it can be read. */
static bool read_words(struct words *words, int count, char **of) {
    int option;
    char *end = "";
    words->bytes = 128;
    while ((option = getopt(count, of, "r:w:n:c:")) != -1) {
        switch (option) {
        case 'r': words->in = optarg; break;
        case 'w': words->out = optarg; break;
        case 'n': words->bytes = strtoul(optarg, &end, 10); break;
        case 'c': words->expression = optarg; break;
        default: return false;
        }
    }
    if (optind < count) words->file = of[optind++];
    if (optind < count) words->function = of[optind++];
    return words->file && optind == count && words->in && words->out && !*end && words->bytes <= MOST_CONTEXT;
}

/* Loads a function of an object file, with its loops unrolled. The status of this program. */
static int load(struct filter *filter, const struct words *words) {
    static uint8_t bytes[MOST_FILE + 1];
    char text[1024] = "";
    ebpf_refusal refusal;
    FILE *file = fopen(words->file, "rb");
    size_t length = file ? fread(bytes, 1, sizeof bytes, file) : 0;
    bool is_read = file && !ferror(file) && length <= MOST_FILE;
    if (file) fclose(file);
    if (!is_read) return fail(words->file, "it can't be read, or has more than a mebibyte");
    const char *name = words->function ? words->function : "";
    filter->context = words->bytes;
    ebpf_status status = ebpf_program_load_elf_unrolled(&filter->program, bytes, length, name, strlen(name), (uint32_t)filter->context, MOST_HELD,
                                                        text, sizeof text - 1, &refusal);
    if (status == EBPF_REFUSED) fprintf(stderr, "pcap-ebpf: refused, %.4s at slot %u\n%s", refusal.code, refusal.slot, text);
    else if (status == EBPF_DONE) status = ebpf_machine_new(&filter->machine, PAGES);
    return status == EBPF_DONE ? 0 : status == EBPF_REFUSED ? 1 : fail(words->file, ebpf_status_text(status));
}

/* Adds a packet to a batch. Whether there is memory for it. */
static bool add(struct batch *batch, const struct pcap_pkthdr *header, const uint8_t *packet, size_t context) {
    size_t need = batch->length + header->caplen;
    if (need > batch->room) {
        uint8_t *more = realloc(batch->bytes, 2 * need);
        if (!more) return false;
        batch->bytes = more, batch->room = 2 * need;
    }
    memcpy(batch->bytes + batch->length, packet, header->caplen);
    uint8_t *of = batch->contexts + batch->count * context;
    size_t given = header->caplen < context ? header->caplen : context;
    memcpy(of, packet, given);
    memset(of + given, 0, context - given);
    batch->headers[batch->count] = *header;
    batch->starts[batch->count++] = batch->length;
    batch->length = need;
    return true;
}

/* Reads the next packets of a capture: 1 if there are more, 0 at its end, below zero if it can't be read or there is no memory. */
static int fill(struct batch *batch, pcap_t *in, size_t context) {
    struct pcap_pkthdr *header;
    const uint8_t *packet;
    int more = 1;
    batch->count = batch->length = 0;
    while (batch->count < BATCH && more == 1) {
        more = pcap_next_ex(in, &header, &packet);
        if (more == 1 && !add(batch, header, packet, context)) return NO_MEMORY;
    }
    return more == PCAP_ERROR_BREAK ? 0 : more;
}

/* Judges the same packets by the expression, and counts where the program differs. */
static void compare(struct filter *filter, const struct batch *batch) {
    bool keeps[BATCH];
    double start = now();
    for (size_t i = 0; i < batch->count; i++) {
        keeps[i] = pcap_offline_filter(&filter->expression, &batch->headers[i], batch->bytes + batch->starts[i]);
    }
    filter->time_of_expression += now() - start;
    for (size_t i = 0; i < batch->count; i++) filter->differing += keeps[i] != (batch->reports[i].exit != 0);
}

/* Judges the packets of a batch. */
static ebpf_status judge(struct filter *filter, struct batch *batch) {
    size_t done;
    double start = now();
    ebpf_status status = ebpf_machine_run_batch(&filter->machine, &filter->program, batch->contexts, batch->count * filter->context, LIMIT,
                                                batch->reports, batch->count, &done);
    filter->time += now() - start;
    filter->packets += batch->count;
    if (status == EBPF_DONE && filter->is_compared) compare(filter, batch);
    return status;
}

/* Writes the packets of a batch that are kept. */
static void keep(struct filter *filter, const struct batch *batch, pcap_dumper_t *out) {
    for (size_t i = 0; i < batch->count; i++) {
        if (!batch->reports[i].exit) continue;
        pcap_dump((u_char *)out, &batch->headers[i], batch->bytes + batch->starts[i]);
        filter->kept++;
    }
}

/* Filters a whole capture. The status of this program: what was read before a fault is filtered. */
static int filter_all(struct filter *filter, struct batch *batch, pcap_t *in, pcap_dumper_t *out) {
    int more = 1;
    while (more == 1) {
        more = fill(batch, in, filter->context);
        ebpf_status status = judge(filter, batch);
        if (status != EBPF_DONE) return fail("a run", ebpf_status_text(status));
        keep(filter, batch, out);
    }
    if (more == PCAP_ERROR) return fail("the capture", pcap_geterr(in));
    if (more == NO_MEMORY) return fail("the capture", "out of memory");
    bool is_written = !pcap_dump_flush(out) && !ferror(pcap_dump_file(out));
    return is_written ? 0 : fail("the packets", "they can't be written");
}

/* Says what came of it, beside the expression. */
static void say(const struct filter *filter) {
    double packets = filter->packets ? (double)filter->packets : 1;
    fprintf(stderr, "kept %lu of %lu packets, and the expression otherwise of %lu\n", filter->kept, filter->packets, filter->differing);
    fprintf(stderr, "nanoseconds a packet: %.1f by the program, %.1f by the expression\n", filter->time / packets,
            filter->time_of_expression / packets);
}

/* Opens the output for a capture, and filters it. */
static int filter_to(struct filter *filter, struct batch *batch, pcap_t *in, const struct words *words) {
    filter->is_compared = words->expression;
    if (words->expression && pcap_compile(in, &filter->expression, words->expression, 1, PCAP_NETMASK_UNKNOWN)) {
        return fail(words->expression, pcap_geterr(in));
    }
    pcap_dumper_t *out = pcap_dump_open(in, words->out);
    if (!out) return fail("the output", pcap_geterr(in));
    int status = filter_all(filter, batch, in, out);
    pcap_dump_close(out);
    if (words->expression) say(filter), pcap_freecode(&filter->expression);
    return status;
}

int main(int count, char **of) {
    static struct batch batch;
    static struct filter filter;
    struct words words = {0};
    char why[PCAP_ERRBUF_SIZE];
    if (!read_words(&words, count, of)) {
        fprintf(stderr, "usage: pcap-ebpf FILE.o [FUNCTION] -r IN.pcap -w OUT.pcap [-n BYTES] [-c EXPRESSION]\n");
        return 2;
    }
    int status = load(&filter, &words);
    pcap_t *in = status ? NULL : pcap_open_offline(words.in, why);
    if (in) status = filter_to(&filter, &batch, in, &words), pcap_close(in);
    else if (!status) status = fail("the capture", why);
    free(batch.bytes);
    ebpf_machine_free(&filter.machine);
    ebpf_program_free(&filter.program);
    return status;
}
