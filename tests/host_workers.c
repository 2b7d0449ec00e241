/* Hosts of 1, 4, 16 and 64 threads, each with a worker, over 1 to 256 pages: programs take objects, give them back and exchange them on shelves,
 * and the host puts objects there and takes them. Workers are closed and opened meanwhile, and the reaper makes its passes. At the end the totals
 * must be what the reports said.
 *
 *     host_workers [THREADS PAGES ROUNDS] */
#include <assert.h>
#include <pthread.h>
#include <sched.h>
#include <stdatomic.h>
#include <stdio.h>
#include <stdlib.h>
#include <string.h>

#include "ebpf_host.h"

enum { MOST_WORKERS = 64, HELD = 64, BATCH = 16 };

/* takes a cell, writes the byte of the context there twice, reads it back, gives the cell back, and returns the byte; 0 if it gets no cell */
#define OWN "7116000000000000b70100000000000085000000010000001500060000000000" \
            "7b600000000000007b600800000000007906000000000000bf01000000000000" \
            "8500000002000000bf600000000000009500000000000000"
/* takes what is on the shelf of records, and gives it back */
#define FETCH "b701000001000000b70200000000000085000000040000001500020000000000" \
              "bf010000000000008500000002000000b7000000000000009500000000000000"
/* leaves a record with the byte of the context on the shelf of records, and gives back what was there */
#define LEAVE "7116000000000000b701000001000000850000000100000015000800000000007b60000000000000b701000001000000" \
              "bf0200000000000085000000040000001500020000000000bf010000000000008500000002000000b700000000000000" \
              "9500000000000000"

static ebpf_program own, fetch, leave, hold;
static const size_t sizes[] = {16, 64, 512};

/* What is shared is one thread's at a time; workers run without the lock. */
static pthread_mutex_t lock = PTHREAD_MUTEX_INITIALIZER;
static ebpf_shared shared;
static atomic_int running; /* how many threads are */

/* What calls said of the objects of a kind. */
struct sums {
    uint64_t granted, refused, puts, gets;
};

struct thread {
    pthread_t thread;
    ebpf_worker worker;
    uint64_t chance;
    int rounds;
    struct sums kinds[3];
};

static uint32_t draw(struct thread *thread, uint32_t most) {
    thread->chance = thread->chance * 6364136223846793005u + 1442695040888963407u;
    return (uint32_t)(thread->chance >> 33) % most;
}

static void load(ebpf_program *program, const uint8_t *slots, size_t length, uint32_t context, uint32_t held) {
    ebpf_refusal refusal;
    assert(ebpf_program_load(program, slots, length, context, held, NULL, 0, &refusal) == EBPF_DONE);
}

static void load_digits(ebpf_program *program, const char *digits, uint32_t context) {
    uint8_t slots[512];
    size_t length = strlen(digits) / 2;
    for (size_t i = 0; i < length; i++) sscanf(digits + 2 * i, "%2hhx", &slots[i]);
    load(program, slots, length, context, 1);
}

static uint8_t *put_slot(uint8_t *at, uint8_t code, uint8_t registers, uint8_t offset, int32_t number) {
    const uint8_t head[] = {code, registers, offset, 0};
    memcpy(at, head, 4), memcpy(at + 4, &number, 4);
    return at + 8;
}

/* a program that takes 64 blocks, or as many as it gets, and then gives them back */
static void load_hold(void) {
    uint8_t slots[8 * (8 * HELD + 3)], *at = put_slot(slots, 0xbf, 0xa6, 0, 0); /* r6 = r10 */
    for (int i = 0; i < HELD; i++) {
        at = put_slot(at, 0xb7, 0x01, 0, EBPF_BLOCK); /* r1 = the kind */
        at = put_slot(at, 0x85, 0x00, 0, 1);          /* r0 = new(r1) */
        at = put_slot(at, 0x07, 0x06, 0, -8);         /* r6 += -8 */
        at = put_slot(at, 0x7b, 0x06, 0, 0);          /* *(u64 *)r6 = r0 */
    }
    for (int i = 0; i < HELD; i++) {
        at = put_slot(at, 0x79, 0x61, 0, 0); /* r1 = *(u64 *)r6 */
        at = put_slot(at, 0x15, 0x01, 1, 0); /* if r1 == 0 goto +1 */
        at = put_slot(at, 0x85, 0x00, 0, 2); /* free(r1) */
        at = put_slot(at, 0x07, 0x06, 0, 8); /* r6 += 8 */
    }
    at = put_slot(at, 0xb7, 0x00, 0, 0), at = put_slot(at, 0x95, 0x00, 0, 0); /* r0 = 0; exit */
    load(&hold, slots, (size_t)(at - slots), 0, HELD);
}

/* Adds what a report says of the calls for a kind, and what it says it left on the shelf. */
static void add(struct thread *thread, int kind, const ebpf_report *report, uint64_t puts) {
    struct sums *of = &thread->kinds[kind];
    assert(report->exited);
    of->granted += report->granted, of->refused += report->refused, of->gets += report->fetched, of->puts += puts;
}

static ebpf_report run(struct thread *thread, const ebpf_program *program, const uint8_t *context, size_t length) {
    ebpf_report report;
    assert(ebpf_worker_run(&thread->worker, program, context, length, 4096, NULL, 0, &report) == EBPF_DONE);
    return report;
}

/* A cell is the run's own for as long as it has it. */
static void takes_cells(struct thread *thread) {
    ebpf_report reports[BATCH];
    uint8_t bytes[BATCH];
    size_t done, count = 1 + draw(thread, BATCH);
    for (size_t i = 0; i < count; i++) bytes[i] = (uint8_t)(1 + draw(thread, 255));
    assert(ebpf_worker_run_batch(&thread->worker, &own, bytes, count, 4096, reports, count, &done) == EBPF_DONE && done == count);
    for (size_t i = 0; i < count; i++) {
        assert(reports[i].granted + reports[i].refused == 1 && reports[i].exit == (reports[i].granted ? bytes[i] : 0));
        add(thread, EBPF_CELL, &reports[i], 0);
    }
}

static void exchanges(struct thread *thread) {
    uint8_t byte = (uint8_t)draw(thread, 256);
    ebpf_report report = run(thread, &leave, &byte, 1);
    assert(report.granted + report.refused == 1 && report.fetched + report.missed == report.granted);
    add(thread, EBPF_RECORD, &report, report.granted);
    report = run(thread, &fetch, NULL, 0);
    assert(report.fetched + report.missed == 1);
    add(thread, EBPF_RECORD, &report, 0);
}

static void holds(struct thread *thread) {
    ebpf_report report = run(thread, &hold, NULL, 0);
    assert(report.granted + report.refused == HELD && report.peak == report.granted);
    add(thread, EBPF_BLOCK, &report, 0);
}

/* Puts an object of one byte everywhere on a shelf. */
static void puts_one(struct thread *thread) {
    uint8_t bytes[512];
    bool replaced = false;
    uint32_t kind = draw(thread, 3);
    memset(bytes, (int)draw(thread, 256), sizeof bytes);
    ebpf_status status = ebpf_worker_put(&thread->worker, kind, bytes, sizes[kind], &replaced);
    assert(status == EBPF_DONE || (status == EBPF_NO_OBJECT && !replaced));
    struct sums *of = &thread->kinds[kind];
    of->granted += status == EBPF_DONE, of->refused += status != EBPF_DONE;
    of->puts += status == EBPF_DONE, of->gets += replaced;
}

/* Takes an object off a shelf: it is as the host or a program left it there, whole. */
static void takes_one(struct thread *thread) {
    uint8_t bytes[512];
    bool found;
    uint32_t kind = draw(thread, 3);
    assert(ebpf_worker_take(&thread->worker, kind, bytes, sizeof bytes, &found) == EBPF_DONE);
    if (!found) return;
    thread->kinds[kind].gets++;
    size_t from = kind == EBPF_RECORD && bytes[1] != bytes[0] ? 8 : 0; /* a program writes eight bytes, of which only the first isn't 0 */
    for (size_t i = 1; i < from; i++) assert(bytes[i] == 0);
    for (size_t i = from; i < sizes[kind]; i++) assert(bytes[i] == (from || (kind == EBPF_RECORD && i >= 8 && !bytes[0] && bytes[63]) ? 0xff : bytes[0]));
}

static void opens(struct thread *thread) {
    assert(pthread_mutex_lock(&lock) == 0);
    assert(ebpf_worker_open(&thread->worker, &shared) == EBPF_DONE);
    assert(pthread_mutex_unlock(&lock) == 0);
}

static void *work(void *argument) {
    struct thread *thread = argument;
    opens(thread);
    for (int i = 0; i < thread->rounds; i++) {
        switch (draw(thread, 16)) {
        case 0: holds(thread); break;
        case 1: puts_one(thread); break;
        case 2: takes_one(thread); break;
        case 3:
            if (draw(thread, 16) == 0) ebpf_worker_close(&thread->worker), opens(thread);
            break;
        case 4: case 5: case 6: case 7: exchanges(thread); break;
        default: takes_cells(thread);
        }
    }
    running--;
    return NULL; /* its worker is closed by the thread that joins this one */
}

/* The totals are what the calls of all threads said. How many objects runs and the host were granted. */
static uint64_t agree(const struct thread *threads, int count, const ebpf_totals *totals) {
    uint64_t objects = 0;
    for (int kind = 0; kind < 3; kind++) {
        const ebpf_kind_totals *of = &totals->kinds[kind];
        struct sums all = {0, 0, 0, 0};
        for (int i = 0; i < count; i++) {
            const struct sums *one = &threads[i].kinds[kind];
            all.granted += one->granted, all.refused += one->refused, all.puts += one->puts, all.gets += one->gets;
        }
        assert(of->missing + of->frees == of->allocs + of->foreign && of->frees == of->allocs);
        assert(of->puts == of->gets + of->left && of->left <= 1);
        assert(of->allocs == all.granted && of->nulls + of->busy == all.refused);
        assert(of->puts == all.puts && of->gets == all.gets);
        objects += all.granted;
    }
    assert(totals->clashes == 0 && totals->strays == 0);
    return objects;
}

/* A host of that many threads. The owner of what they share reaps beside them, and has a worker too, if there may be one more. */
static uint64_t host(int count, uint32_t pages, int rounds) {
    static struct thread threads[MOST_WORKERS];
    ebpf_worker owners = {0};
    ebpf_totals totals;
    uint32_t back;
    memset(threads, 0, sizeof threads);
    assert(ebpf_shared_new(&shared, pages, count < MOST_WORKERS ? (uint32_t)count + 1 : MOST_WORKERS) == EBPF_DONE);
    if (count < MOST_WORKERS) assert(ebpf_worker_open(&owners, &shared) == EBPF_DONE);
    running = count;
    for (int i = 0; i < count; i++) {
        threads[i].rounds = rounds, threads[i].chance = (uint64_t)i * 977 + pages;
        assert(pthread_create(&threads[i].thread, NULL, work, &threads[i]) == 0);
    }
    do {
        assert(pthread_mutex_lock(&lock) == 0);
        assert(ebpf_shared_reap(&shared, &back) == EBPF_DONE && back <= pages);
        if (owners.word) assert(ebpf_shared_close(&shared, &totals) == EBPF_BUSY);
        assert(pthread_mutex_unlock(&lock) == 0);
        sched_yield();
    } while (running > 0);
    for (int i = 0; i < count; i++) {
        assert(pthread_join(threads[i].thread, NULL) == 0 && ebpf_shared_close(&shared, &totals) == EBPF_BUSY);
        ebpf_worker_close(&threads[i].worker);
    }
    ebpf_worker_close(&owners);
    assert(ebpf_shared_close(&shared, &totals) == EBPF_DONE && !shared.word);
    return agree(threads, count, &totals);
}

/* A thread that is killed in the midst of a call: the program takes a cell and gives it back, in memory that the thread has already. */
static void *runs_until_killed(void *argument) {
    ebpf_worker *worker = argument;
    ebpf_program mine = {0};
    ebpf_report report = {0};
    uint8_t byte = 7;
    uint64_t output[1];
    assert(ebpf_program_share(&mine, &own) == EBPF_DONE);
    assert(ebpf_worker_run(worker, &mine, &byte, 1, UINT64_MAX, output, 0, &report) == EBPF_DONE);
    atomic_fetch_add(&running, 1);
    assert(pthread_setcanceltype(PTHREAD_CANCEL_ASYNCHRONOUS, NULL) == 0);
    for (;;) ebpf_worker_run(worker, &mine, &byte, 1, UINT64_MAX, output, 0, &report);
}

/* Threads that are killed leave the others working. What a killed one had taken stays with it, so what all share can't be closed any more. */
static void killed(int threads) {
    ebpf_shared shared = {0};
    ebpf_worker worker = {0}, others[MOST_WORKERS] = {{0}};
    ebpf_totals totals;
    ebpf_report report = {0};
    uint8_t byte = 9;
    uint64_t output[1];
    assert(ebpf_shared_new(&shared, 16, (uint32_t)threads + 1) == EBPF_DONE && ebpf_worker_open(&worker, &shared) == EBPF_DONE);
    for (int i = 0; i < threads; i++) {
        pthread_t id;
        assert(ebpf_worker_open(&others[i], &shared) == EBPF_DONE);
        atomic_store(&running, 0);
        assert(pthread_create(&id, NULL, runs_until_killed, &others[i]) == 0);
        while (!atomic_load(&running)) sched_yield();
        for (int j = 0; j < 100; j++) assert(ebpf_worker_run(&worker, &own, &byte, 1, UINT64_MAX, output, 0, &report) == EBPF_DONE && report.exited);
        assert(pthread_cancel(id) == 0 && pthread_join(id, NULL) == 0);
        for (int j = 0; j < 100; j++) assert(ebpf_worker_run(&worker, &own, &byte, 1, UINT64_MAX, output, 0, &report) == EBPF_DONE && report.exited);
    }
    assert(ebpf_shared_close(&shared, &totals) == EBPF_BUSY);
    ebpf_worker_close(&worker), ebpf_shared_free(&shared);
}

int main(int count, char **words) {
    const int threads[] = {1, 4, 16, 64};
    const uint32_t pages[] = {1, 3, 16, 256};
    uint64_t objects = 0;
    assert(count == 1 || count == 4);
    load_digits(&own, OWN, 1), load_digits(&fetch, FETCH, 0), load_digits(&leave, LEAVE, 1), load_hold();
    if (count == 4) objects = host(atoi(words[1]), (uint32_t)atoi(words[2]), atoi(words[3]));
    else
        for (int i = 0; i < 4; i++)
            for (int j = 0; j < 4; j++) objects += host(threads[i], pages[j], 32000 / threads[i]);
    if (count == 1) killed(16);
    ebpf_program_free(&own), ebpf_program_free(&fetch), ebpf_program_free(&leave), ebpf_program_free(&hold);
    printf("host: workers were granted %llu objects, and each came back\n", (unsigned long long)objects);
    return 0;
}
