/* Counts the packets of a capture by class, on threads that count on one shelf: no count is lost, and nothing takes a lock.
 *
 *     count_packets CLASSES.o CAPTURE.pcap [THREADS]
 *
 * CLASSES.o is packet_classes.o, the program packet_classes.c as clang compiles it. CAPTURE is a file of tcpdump -w, of Ethernet frames,
 * from a machine of either byte order. THREADS is 1 to 64, and 8 if it isn't given.
 *
 * The program is verified once. Each thread has a worker, and takes the next packets by an index that all share. A run begins a record of
 * eight counters with its packet, adds those of the record that it takes off the shelf, and puts its own there. If another thread put one
 * there meanwhile, it merges the two. If others came between each time, it emits the counters, so the host keeps a sum for each thread. At
 * the end the host takes the record off the shelf, and all sums together are the number of packets. */
#include <pthread.h>
#include <stdatomic.h>
#include <stdio.h>
#include <stdlib.h>
#include <string.h>

#include <ebpf_host.h>

enum { CONTEXT = 24, HELD = 2, LIMIT = 4096, CLASSES = 8, PAGES = 64, MOST_THREADS = 64, MOST_FILE = 1 << 30, TURN = 64 };

static const char *const class_names[CLASSES] = {"IPv4 TCP", "IPv4 UDP", "IPv4 other", "IPv6 TCP", "IPv6 UDP", "IPv6 other", "ARP", "the rest"};

/* What all threads read. */
struct job {
    ebpf_program program;
    const uint8_t *packets; /* CONTEXT bytes of each */
    size_t count;
    atomic_size_t next; /* the first packet that no thread has taken */
};

/* What one thread uses; what it counts in the loop is on its own stack. */
struct thread {
    pthread_t id;
    struct job *job;
    ebpf_worker worker;
    ebpf_status status;
    uint64_t sums[CLASSES]; /* what its runs counted, but not on the shelf */
    uint64_t aside;         /* how many runs did so */
};

static void fail(const char *what) {
    fprintf(stderr, "count_packets: %s\n", what);
    exit(1);
}

static void check(ebpf_status status) {
    if (status != EBPF_DONE) fail(ebpf_status_text(status));
}

/* A whole file; what it has is never freed. */
static uint8_t *read_file(const char *path, size_t *length) {
    FILE *file = fopen(path, "rb");
    if (!file || fseek(file, 0, SEEK_END)) fail("a file can't be opened");
    long end = ftell(file);
    if (end < 0 || end > MOST_FILE) fail("a file is too long, or no plain file");
    uint8_t *bytes = malloc((size_t)end + 1);
    if (!bytes) fail("out of memory");
    rewind(file);
    *length = fread(bytes, 1, (size_t)end, file);
    if (*length != (size_t)end) fail("a file can't be read");
    fclose(file);
    return bytes;
}

/* A word of four bytes, in the order of the machine that wrote the capture. */
static uint32_t word(const uint8_t *at, int is_big) {
    return is_big ? (uint32_t)at[0] << 24 | (uint32_t)at[1] << 16 | (uint32_t)at[2] << 8 | at[3]
                  : (uint32_t)at[3] << 24 | (uint32_t)at[2] << 16 | (uint32_t)at[1] << 8 | at[0];
}

/* The packets of a capture: the first CONTEXT bytes of each, with zeros after a shorter one. The file has a header of 24 bytes, with the kind
 * of link at the end, and before each packet 16 bytes: the time, its length in the file, and its length on the wire. */
static uint8_t *read_packets(const char *path, size_t *count) {
    static const uint32_t microseconds = 0xa1b2c3d4, nanoseconds = 0xa1b23c4d;
    enum { HEAD = 24, RECORD = 16, ETHERNET = 1 };
    size_t length;
    uint8_t *file = read_file(path, &length);
    if (length < HEAD) fail("the capture has no header");
    int is_big = file[0] == 0xa1;
    uint32_t magic = word(file, is_big);
    if (magic != microseconds && magic != nanoseconds) fail("this is no pcap file (one of pcapng can be made one by editcap -F pcap)");
    if ((word(file + 20, is_big) & 0x0fffffff) != ETHERNET) fail("the packets of the capture are no Ethernet frames");
    uint8_t *packets = calloc(length / RECORD + 1, CONTEXT);
    if (!packets) fail("out of memory");
    *count = 0;
    for (size_t at = HEAD; at < length;) {
        if (length - at < RECORD) fail("the capture ends within the head of a packet");
        size_t kept = word(file + at + 8, is_big);
        at += RECORD;
        if (length - at < kept) fail("the capture ends within a packet");
        memcpy(packets + CONTEXT * (*count)++, file + at, kept < CONTEXT ? kept : CONTEXT);
        at += kept;
    }
    free(file);
    return packets;
}

/* Verifies the only function of an object file. */
static void load(ebpf_program *program, const char *path) {
    size_t length;
    uint8_t *bytes = read_file(path, &length);
    char why[1024] = "";
    ebpf_refusal refusal;
    ebpf_status status = ebpf_program_load_elf(program, bytes, length, NULL, 0, CONTEXT, HELD, why, sizeof why, &refusal);
    free(bytes);
    if (status == EBPF_REFUSED) {
        why[sizeof why - 1] = '\0';
        fprintf(stderr, "refused %.4s %u\n%s", refusal.code, refusal.slot, why);
        exit(2);
    }
    check(status);
}

/* A thread: runs the program on the packets that it takes, TURN of them at a time, until none is left. Each is a run by itself, since a batch
 * does not write what its runs emit. */
static void *work(void *argument) {
    struct thread *thread = argument;
    struct job *job = thread->job;
    uint64_t sums[CLASSES] = {0}, aside = 0, output[CLASSES];
    ebpf_report report;
    ebpf_status status = EBPF_DONE;
    size_t first;
    while (status == EBPF_DONE && (first = atomic_fetch_add(&job->next, TURN)) < job->count) {
        size_t end = job->count - first < TURN ? job->count : first + TURN;
        for (size_t i = first; i < end && status == EBPF_DONE; i++) {
            status = ebpf_worker_run(&thread->worker, &job->program, job->packets + CONTEXT * i, CONTEXT, LIMIT, output, CLASSES, &report);
            if (status != EBPF_DONE) break;
            aside += report.exit || report.outputs;
            if (report.exit) sums[(report.exit - 1) % CLASSES]++; /* no record was granted */
            for (size_t k = 0; k < report.outputs && k < CLASSES; k++) sums[k] += output[k]; /* others came between each time */
        }
    }
    memcpy(thread->sums, sums, sizeof sums);
    thread->aside = aside;
    thread->status = status;
    return NULL;
}

/* Runs all packets on that many threads, adds what they counted, but not on the shelf, and returns how many runs did so. */
static uint64_t work_on(struct job *job, ebpf_shared *shared, struct thread *threads, int many, uint64_t sums[CLASSES]) {
    for (int i = 0; i < many; i++) {
        threads[i] = (struct thread){.job = job};
        check(ebpf_worker_open(&threads[i].worker, shared));
    }
    for (int i = 0; i < many; i++) {
        if (pthread_create(&threads[i].id, NULL, work, &threads[i])) fail("a thread can't be started");
    }
    uint64_t aside = 0;
    for (int i = 0; i < many; i++) {
        pthread_join(threads[i].id, NULL);
        check(threads[i].status);
        for (int k = 0; k < CLASSES; k++) sums[k] += threads[i].sums[k];
        aside += threads[i].aside;
    }
    return aside;
}

/* Adds to the sums what was counted on the shelf, and takes it off. */
static void drain(ebpf_worker *worker, uint64_t sums[CLASSES]) {
    uint64_t counts[CLASSES];
    bool found = true;
    while (found) {
        check(ebpf_worker_take(worker, EBPF_RECORD, (uint8_t *)counts, sizeof counts, &found));
        for (int k = 0; found && k < CLASSES; k++) sums[k] += counts[k];
    }
}

/* Closes what was shared, and writes its totals. Returns whether each record came back, and each that was put on the shelf left it. */
static int close_all(ebpf_shared *shared, struct thread *threads, int many) {
    ebpf_totals totals;
    for (int i = 0; i < many; i++) ebpf_worker_close(&threads[i].worker);
    check(ebpf_shared_close(shared, &totals));
    const ebpf_kind_totals *records = &totals.kinds[EBPF_RECORD];
    printf("records: %llu taken, %llu given back, %llu not granted\n", (unsigned long long)records->allocs, (unsigned long long)records->frees,
           (unsigned long long)(records->nulls + records->busy));
    printf("the shelf: %llu put, %llu got, %llu left\n", (unsigned long long)records->puts, (unsigned long long)records->gets,
           (unsigned long long)records->left);
    return records->allocs == records->frees && records->puts == records->gets + records->left && !records->missing && !records->foreign
           && !totals.clashes && !totals.strays;
}

int main(int count, char **words) {
    if (count != 3 && count != 4) fail("usage: count_packets CLASSES.o CAPTURE.pcap [THREADS]");
    int many = count == 4 ? atoi(words[3]) : 8;
    if (many < 1 || many > MOST_THREADS) fail("there are 1 to 64 threads");
    static struct job job;
    static struct thread threads[MOST_THREADS];
    ebpf_shared shared = {0};
    uint64_t sums[CLASSES] = {0}, all = 0;
    load(&job.program, words[1]);
    uint8_t *packets = read_packets(words[2], &job.count);
    job.packets = packets;
    check(ebpf_shared_new(&shared, PAGES, (uint32_t)many));
    uint64_t aside = work_on(&job, &shared, threads, many, sums);
    drain(&threads[0].worker, sums);
    for (int k = 0; k < CLASSES; k++) {
        all += sums[k];
        if (sums[k]) printf("%s: %llu\n", class_names[k], (unsigned long long)sums[k]);
    }
    printf("counted %llu of %zu packets by %d threads; runs that left nothing on the shelf: %llu\n", (unsigned long long)all, job.count, many,
           (unsigned long long)aside);
    int is_exact = close_all(&shared, threads, many) && all == job.count;
    if (!is_exact) printf("THE COUNTS DO NOT ADD UP\n");
    ebpf_program_free(&job.program);
    free(packets);
    return !is_exact;
}
