/* Each function of include/ebpf_host.h for workers with each of its statuses; what one worker leaves on a shelf, another finds; totals; handles
 * that are closed and freed in any order; and each allocation refused in turn: malloc and realloc are those below, by the linker's --wrap. */
#include <assert.h>
#include <stdio.h>
#include <stdlib.h>
#include <string.h>

#include "ebpf_host.h"

static long left = -1; /* how many allocations are still served; below zero, all */
static int refused;    /* whether one was refused */

void *__real_malloc(size_t size);
void *__real_realloc(void *old, size_t size);
void *__wrap_malloc(size_t size);
void *__wrap_realloc(void *old, size_t size);

static int serves(void) {
    if (left < 0) return 1;
    if (left == 0) {
        refused = 1;
        return 0;
    }
    left--;
    return 1;
}

void *__wrap_malloc(size_t size) { return serves() ? __real_malloc(size) : NULL; }
void *__wrap_realloc(void *old, size_t size) { return serves() ? __real_realloc(old, size) : NULL; }

/* takes a cell, reads back the 5 that it wrote there, and returns it; 0 if it gets none */
#define CELL "b701000000000000850000000100000015000500000000007a00000005000000" \
             "7906000000000000bf010000000000008500000002000000bf600000000000009500000000000000"
/* emits the byte of the context and returns 7 */
#define EMIT "71110000000000008500000003000000b7000000070000009500000000000000"
/* takes what is on the shelf of records, and gives it back */
#define FETCH "b701000001000000b70200000000000085000000040000001500020000000000" \
              "bf010000000000008500000002000000b7000000000000009500000000000000"
/* leaves a record with the byte of the context on the shelf of records, and gives back what was there */
#define LEAVE "7116000000000000b701000001000000850000000100000015000800000000007b60000000000000b701000001000000" \
              "bf0200000000000085000000040000001500020000000000bf010000000000008500000002000000b700000000000000" \
              "9500000000000000"

static ebpf_shared shared;
static ebpf_worker one, other;
static ebpf_program cell, emit, fetch, leave;
static ebpf_report report;
static ebpf_totals totals;
static uint64_t output[4];

/* Fills what a call may write, so that a later look finds what it wrote. */
static void mark(void) {
    memset(output, 'x', sizeof output), memset(&report, 'x', sizeof report), memset(&totals, 'x', sizeof totals);
}

static int is_marked(const void *bytes, size_t length) {
    for (size_t i = 0; i < length; i++)
        if (((const char *)bytes)[i] != 'x') return 0;
    return 1;
}

static ebpf_status load(ebpf_program *program, const char *digits, uint32_t context, uint32_t held) {
    uint8_t bytes[512];
    ebpf_refusal refusal;
    size_t length = strlen(digits) / 2;
    for (size_t i = 0; i < length; i++) sscanf(digits + 2 * i, "%2hhx", &bytes[i]);
    return ebpf_program_load(program, bytes, length, context, held, NULL, 0, &refusal);
}

static void load_all(void) {
    assert(load(&cell, CELL, 0, 1) == EBPF_DONE && load(&emit, EMIT, 1, 0) == EBPF_DONE);
    assert(load(&fetch, FETCH, 0, 1) == EBPF_DONE && load(&leave, LEAVE, 1, 1) == EBPF_DONE);
}

static void free_all(void) {
    ebpf_program_free(&cell), ebpf_program_free(&emit), ebpf_program_free(&fetch), ebpf_program_free(&leave);
}

static ebpf_status run(ebpf_worker *worker, const ebpf_program *program, const char *context, uint64_t limit) {
    void *words[] = {worker->word, program->word};
    mark();
    ebpf_status status = ebpf_worker_run(worker, program, (const uint8_t *)context, strlen(context), limit, output, 4, &report);
    assert(worker->word == words[0] && program->word == words[1]);
    assert(status == EBPF_DONE || (is_marked(output, sizeof output) && is_marked(&report, sizeof report))); /* nothing was run */
    return status;
}

static ebpf_status close_all(void) {
    void *word = shared.word;
    mark();
    ebpf_status status = ebpf_shared_close(&shared, &totals);
    assert(status == EBPF_DONE ? !shared.word : shared.word == word && is_marked(&totals, sizeof totals));
    return status;
}

/* What is so of all totals. */
static int add_up(void) {
    for (int kind = 0; kind < 3; kind++) {
        const ebpf_kind_totals *of = &totals.kinds[kind];
        if (of->frees != of->allocs || of->missing || of->foreign || of->puts != of->gets + of->left || of->left > 1) return 0;
    }
    return !totals.clashes && !totals.strays;
}

/* Of a kind: how often a worker was given an object or refused one, what was put on the shelf, got from it, and left there. */
static int are(int kind, uint64_t allocs, uint64_t nulls, uint64_t puts, uint64_t gets, uint64_t last) {
    const ebpf_kind_totals *of = &totals.kinds[kind];
    return of->allocs == allocs && of->nulls == nulls && !of->busy && of->puts == puts && of->gets == gets && of->left == last;
}

/* Handles that hold nothing, and numbers out of range. */
static void nothing(void) {
    uint8_t there[16] = {0};
    bool yes = true;
    uint32_t pages = 7;
    size_t done = 7;
    assert(ebpf_worker_open(&one, &shared) == EBPF_EMPTY && !one.word && run(&one, &cell, "", 100) == EBPF_EMPTY);
    assert(ebpf_worker_run_batch(&one, &cell, NULL, 0, 100, &report, 1, &done) == EBPF_EMPTY && done == 7 && is_marked(&report, sizeof report));
    assert(ebpf_worker_put(&one, EBPF_CELL, there, 1, &yes) == EBPF_EMPTY && yes);
    assert(ebpf_worker_take(&one, 3, there, 16, &yes) == EBPF_EMPTY && yes);
    assert(ebpf_shared_reap(&shared, &pages) == EBPF_EMPTY && pages == 7 && close_all() == EBPF_EMPTY);
    ebpf_worker_close(&one), ebpf_shared_free(&shared);
    assert(ebpf_shared_new(&shared, 0, 1) == EBPF_PAGES && ebpf_shared_new(&shared, 257, 1) == EBPF_PAGES);
    assert(ebpf_shared_new(&shared, 0, 0) == EBPF_PAGES && ebpf_shared_new(&shared, UINT32_MAX, 65) == EBPF_PAGES);
    assert(ebpf_shared_new(&shared, 1, 0) == EBPF_WORKERS && ebpf_shared_new(&shared, 256, 65) == EBPF_WORKERS);
    assert(ebpf_shared_new(&shared, 1, UINT32_MAX) == EBPF_WORKERS && !shared.word);
}

/* Workers are opened and closed, and run programs. */
static void runs(void) {
    ebpf_report reports[3];
    size_t done;
    assert(ebpf_shared_new(&shared, 2, 2) == EBPF_DONE && ebpf_worker_open(&one, &shared) == EBPF_DONE);
    assert(ebpf_worker_open(&other, &shared) == EBPF_DONE);
    ebpf_worker third = {0};
    void *word = one.word;
    assert(ebpf_worker_open(&third, &shared) == EBPF_BUSY && !third.word);
    assert(ebpf_worker_open(&one, &shared) == EBPF_BUSY && one.word == word && close_all() == EBPF_BUSY);
    ebpf_worker_close(&other);
    assert(!other.word && ebpf_worker_open(&one, &shared) == EBPF_DONE); /* the first is closed for it */
    assert(ebpf_worker_open(&third, &shared) == EBPF_DONE);

    ebpf_program none = {0};
    assert(run(&one, &none, "", 100) == EBPF_EMPTY && run(&other, &none, "", 100) == EBPF_EMPTY);
    assert(run(&one, &emit, "", 9) == EBPF_CONTEXT && run(&one, &cell, "a", 9) == EBPF_CONTEXT);
    assert(run(&one, &emit, "*", 9) == EBPF_DONE && report.exited && report.exit == 7 && report.executed == 4 && output[0] == '*');
    assert(run(&one, &emit, "*", 3) == EBPF_DONE && !report.exited && report.executed == 3 && report.outputs == 1);
    for (int i = 0; i < 3; i++) {
        assert(run(i % 2 ? &third : &one, &cell, "", 100) == EBPF_DONE);
        assert(report.exit == 5 && report.executed == 9 && report.peak == 1 && report.granted == 1 && !report.refused);
    }
    assert(ebpf_worker_run(&one, &cell, NULL, 0, 3, NULL, 0, &report) == EBPF_DONE && !report.exited && report.granted == 1);

    assert(ebpf_worker_run_batch(&one, &none, NULL, 0, 9, reports, 3, &done) == EBPF_EMPTY);
    assert(ebpf_worker_run_batch(&one, &emit, (const uint8_t *)"ab", 2, 9, reports, 3, &done) == EBPF_CONTEXT);
    assert(ebpf_worker_run_batch(&one, &emit, NULL, 0, 9, NULL, 0, &done) == EBPF_DONE && done == 0);
    assert(ebpf_worker_run_batch(&one, &emit, (const uint8_t *)"abc", 3, 9, reports, 3, &done) == EBPF_DONE && done == 3);
    for (int i = 0; i < 3; i++) assert(reports[i].exit == 7 && reports[i].outputs == 1);
    assert(ebpf_worker_run_batch(&third, &cell, NULL, 0, 100, reports, 3, &done) == EBPF_DONE && done == 3);
    for (int i = 0; i < 3; i++) assert(reports[i].exit == 5 && reports[i].granted == 1);

    ebpf_worker_close(&third);
    assert(close_all() == EBPF_BUSY);
    ebpf_worker_close(&one), ebpf_worker_close(&one);
    assert(close_all() == EBPF_DONE && add_up() && are(EBPF_CELL, 7, 0, 0, 0, 0));
    assert(are(EBPF_RECORD, 0, 0, 0, 0, 0) && are(EBPF_BLOCK, 0, 0, 0, 0, 0) && close_all() == EBPF_EMPTY);
}

/* What one worker or the host leaves on a shelf, another finds, and the host. */
static void shelves(void) {
    uint8_t there[520], bytes[520] = {0};
    bool replaced, found;
    assert(ebpf_shared_new(&shared, 1, 2) == EBPF_DONE && ebpf_worker_open(&one, &shared) == EBPF_DONE);
    assert(ebpf_worker_open(&other, &shared) == EBPF_DONE);
    assert(run(&one, &fetch, "", 100) == EBPF_DONE && report.missed == 1);
    assert(run(&one, &leave, "a", 100) == EBPF_DONE && report.missed == 1 && report.granted == 1);
    assert(run(&other, &fetch, "", 100) == EBPF_DONE && report.fetched == 1);
    assert(run(&other, &leave, "b", 100) == EBPF_DONE && report.missed == 1);
    assert(ebpf_worker_take(&one, EBPF_RECORD, there, 64, &found) == EBPF_DONE && found && there[0] == 'b' && !there[7] && there[8] == 0xff);
    memset(there, 'x', sizeof there);
    assert(ebpf_worker_take(&one, EBPF_RECORD, there, 64, &found) == EBPF_DONE && !found && is_marked(there, 64));
    assert(ebpf_worker_put(&one, EBPF_RECORD, (const uint8_t *)"first", 5, &replaced) == EBPF_DONE && !replaced);
    assert(ebpf_worker_put(&other, EBPF_RECORD, (const uint8_t *)"second", 6, &replaced) == EBPF_DONE && replaced);
    assert(ebpf_worker_take(&one, EBPF_RECORD, there, 8, &found) == EBPF_DONE && found && !memcmp(there, "second\xff\xffxx", 10));
    assert(ebpf_worker_put(&one, EBPF_RECORD, NULL, 0, &replaced) == EBPF_DONE && !replaced);
    assert(ebpf_worker_take(&other, EBPF_RECORD, NULL, 0, &found) == EBPF_DONE && found);

    replaced = found = true;
    assert(ebpf_worker_put(&one, 3, bytes, 1, &replaced) == EBPF_KIND && ebpf_worker_put(&one, UINT32_MAX, bytes, 513, &replaced) == EBPF_KIND);
    assert(ebpf_worker_take(&one, 3, there, 1, &found) == EBPF_KIND && found);
    assert(ebpf_worker_put(&one, EBPF_CELL, bytes, 17, &replaced) == EBPF_LENGTH && ebpf_worker_put(&one, EBPF_RECORD, bytes, 65, &replaced) == EBPF_LENGTH);
    assert(ebpf_worker_put(&one, EBPF_BLOCK, bytes, 513, &replaced) == EBPF_LENGTH);
    assert(ebpf_worker_put(&one, EBPF_CELL, bytes, 16, &replaced) == EBPF_NO_OBJECT && replaced); /* the one page has records */
    assert(run(&one, &cell, "", 100) == EBPF_DONE && report.refused == 1 && report.exit == 0);
    assert(ebpf_worker_put(&one, EBPF_RECORD, bytes, 64, &replaced) == EBPF_DONE && !replaced);
    ebpf_worker_close(&other), ebpf_worker_close(&one);
    assert(close_all() == EBPF_DONE && add_up() && are(EBPF_CELL, 0, 2, 0, 0, 0) && are(EBPF_RECORD, 6, 0, 6, 5, 1));
}

/* A slot of a program. */
static uint8_t *put_slot(uint8_t *at, uint8_t code, uint8_t registers, uint8_t offset, int32_t number) {
    const uint8_t head[] = {code, registers, offset, 0};
    memcpy(at, head, 4), memcpy(at + 4, &number, 4);
    return at + 8;
}

enum { HELD = 64 };

/* A program that takes as many objects of a kind as a run may hold, keeps them on its stack, and gives back those that it was granted. */
static void load_holder(ebpf_program *program, int32_t kind) {
    uint8_t slots[8 * (8 * HELD + 3)], *at = put_slot(slots, 0xbf, 0xa6, 0, 0); /* r6 = r10 */
    ebpf_refusal refusal;
    for (int i = 0; i < HELD; i++) {
        at = put_slot(at, 0xb7, 0x01, 0, kind); /* r1 = kind */
        at = put_slot(at, 0x85, 0x00, 0, 1);    /* r0 = new(r1) */
        at = put_slot(at, 0x07, 0x06, 0, -8);   /* r6 += -8 */
        at = put_slot(at, 0x7b, 0x06, 0, 0);    /* *(u64 *)r6 = r0 */
    }
    for (int i = 0; i < HELD; i++) {
        at = put_slot(at, 0x79, 0x61, 0, 0); /* r1 = *(u64 *)r6 */
        at = put_slot(at, 0x15, 0x01, 1, 0); /* if r1 == 0 goto +1 */
        at = put_slot(at, 0x85, 0x00, 0, 2); /* free(r1) */
        at = put_slot(at, 0x07, 0x06, 0, 8); /* r6 += 8 */
    }
    at = put_slot(at, 0xb7, 0x00, 0, 0), at = put_slot(at, 0x95, 0x00, 0, 0); /* r0 = 0; exit */
    assert(ebpf_program_load(program, slots, (size_t)(at - slots), 0, HELD, NULL, 0, &refusal) == EBPF_DONE);
}

/* Pages go from kind to kind: what a worker doesn't keep for its next runs goes back by a pass of the reaper. */
static void pages(void) {
    ebpf_program holder = {0};
    uint32_t back;
    bool replaced;
    load_holder(&holder, EBPF_BLOCK);
    assert(ebpf_shared_new(&shared, 8, 1) == EBPF_DONE && ebpf_worker_open(&one, &shared) == EBPF_DONE);
    assert(ebpf_shared_reap(&shared, &back) == EBPF_DONE && back == 0);
    assert(run(&one, &holder, "", 4096) == EBPF_DONE && report.peak == HELD && report.granted == HELD); /* on all pages */
    assert(run(&one, &cell, "", 100) == EBPF_DONE && report.refused == 1);
    assert(ebpf_worker_put(&one, EBPF_RECORD, NULL, 0, &replaced) == EBPF_NO_OBJECT);
    assert(ebpf_shared_reap(&shared, &back) == EBPF_DONE && back > 1 && back <= 8);
    assert(run(&one, &cell, "", 100) == EBPF_DONE && report.granted == 1);
    assert(ebpf_worker_put(&one, EBPF_RECORD, NULL, 0, &replaced) == EBPF_DONE);
    assert(run(&one, &holder, "", 4096) == EBPF_DONE && report.granted + report.refused == HELD && report.refused >= 16);
    uint64_t granted = report.granted, nulls = report.refused;
    assert(ebpf_shared_reap(&shared, &back) == EBPF_DONE && back > 0 && ebpf_shared_reap(&shared, &back) == EBPF_DONE && back == 0);
    ebpf_worker_close(&one), ebpf_program_free(&holder);
    assert(close_all() == EBPF_DONE && add_up() && are(EBPF_CELL, 1, 1, 0, 0, 0) && are(EBPF_RECORD, 1, 1, 1, 0, 1));
    assert(are(EBPF_BLOCK, HELD + granted, nulls, 0, 0, 0));
}

/* A worker goes on after what it shares was freed, by itself or for another. */
static void orders(void) {
    for (int order = 0; order < 4; order++) {
        assert(ebpf_shared_new(&shared, 3, 64) == EBPF_DONE && ebpf_worker_open(&one, &shared) == EBPF_DONE);
        assert(ebpf_worker_open(&other, &shared) == EBPF_DONE && run(&other, &leave, "a", 100) == EBPF_DONE);
        if (order % 2) ebpf_shared_free(&shared);
        else assert(ebpf_shared_new(&shared, 1, 1) == EBPF_DONE); /* which takes the place of the first */
        assert(run(&one, &fetch, "", 100) == EBPF_DONE && report.fetched == 1);
        assert(run(&one, &leave, "a", 100) == EBPF_DONE && run(&one, &cell, "", 100) == EBPF_DONE && report.exit == 5);
        ebpf_worker_close(order / 2 ? &one : &other);
        assert(run(order / 2 ? &other : &one, &fetch, "", 100) == EBPF_DONE && report.fetched == 1);
        ebpf_worker_close(order / 2 ? &other : &one);
        ebpf_shared_free(&shared), ebpf_shared_free(&shared);
        assert(!shared.word && !one.word && !other.word);
    }
}

/* The calls with that many allocations served: each answers want of memory and leaves what was there, or does what it says. Whether one
 * was refused. */
static int served(long allocations) {
    ebpf_report reports[2];
    size_t done = 0;
    bool replaced, found;
    uint8_t there[64];
    uint64_t granted = 0;
    refused = 0;
    left = allocations;
    ebpf_status made = ebpf_shared_new(&shared, 2, 2);
    ebpf_status opened = made ? EBPF_NO_MEMORY : ebpf_worker_open(&one, &shared);
    ebpf_status ran = opened ? EBPF_NO_MEMORY : run(&one, &leave, "a", 100);
    if (ran == EBPF_DONE) granted += report.granted;
    ebpf_status ran_each = opened ? EBPF_NO_MEMORY : ebpf_worker_run_batch(&one, &cell, NULL, 0, 100, reports, 2, &done);
    for (size_t i = 0; i < done; i++) granted += reports[i].granted;
    ebpf_status put = opened ? EBPF_NO_OBJECT : ebpf_worker_put(&one, EBPF_RECORD, (const uint8_t *)"b", 1, &replaced);
    granted += put == EBPF_DONE;
    ebpf_status took = opened ? EBPF_DONE : ebpf_worker_take(&one, EBPF_RECORD, there, 64, &found);
    left = -1;
    assert(made == EBPF_DONE ? shared.word != NULL : made == EBPF_NO_MEMORY && !shared.word);
    assert(opened == EBPF_DONE ? one.word != NULL : opened == EBPF_NO_MEMORY && !one.word);
    assert(ran == EBPF_DONE || (ran == EBPF_NO_MEMORY && refused));
    assert(ran_each == EBPF_DONE ? done == 2 : ran_each == EBPF_NO_MEMORY && refused && done < 2);
    assert(put == EBPF_DONE || (put == EBPF_NO_OBJECT && refused));
    assert(took == EBPF_DONE && (opened || found == (put == EBPF_DONE || (ran == EBPF_DONE && report.granted))));
    if (made == EBPF_DONE) {
        assert(ebpf_worker_open(&one, &shared) == EBPF_DONE && run(&one, &cell, "", 100) == EBPF_DONE && report.exit == 5);
        granted += report.granted;
        ebpf_worker_close(&one);
        left = 0; /* to close needs no memory */
        assert(close_all() == EBPF_DONE && add_up());
        left = -1;
        assert(totals.kinds[0].allocs + totals.kinds[1].allocs == granted);
    }
    return refused;
}

int main(void) {
    nothing();
    load_all();
    runs();
    shelves();
    pages();
    orders();
    long allocations = 0;
    while (served(allocations)) allocations++;
    assert(allocations > 20);
    free_all();
    printf("host: workers, with %ld refused allocations\n", allocations);
    return 0;
}
