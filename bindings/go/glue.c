#include "glue.h"

#include <stdlib.h>
#include <string.h>

/* A handle has a line of the processor's cache of its own, which no thread writes. */
enum { LINE = 64 };

/* What the line of a machine or of a worker has. */
struct runner {
    ebpf_machine machine; /* of the two handles one is empty */
    ebpf_worker worker;
    bool is_worker;
};

_Static_assert(sizeof(struct runner) <= sizeof(ebpfhost_runner) && sizeof(ebpfhost_runner) == LINE, "what is kept fits");

static ebpf_program *program_of(const ebpfhost_program *program) { return (ebpf_program *)program; }
static ebpf_shared *shared_of(ebpfhost_shared *shared) { return (ebpf_shared *)shared; }
static struct runner *runner_of(ebpfhost_runner *runner) { return (struct runner *)runner; }

/* A line of zeros, which are empty handles, or null if there is no memory. */
static void *new_line(void) {
    void *line = aligned_alloc(LINE, LINE);
    return line ? memset(line, 0, LINE) : NULL;
}

static ebpf_status load_slots(ebpf_program *program, const uint8_t *bytes, size_t length, uint32_t context, uint32_t held, bool is_unrolled,
                              char *text, size_t text_length, ebpf_refusal *refusal) {
    if (is_unrolled) return ebpf_program_load_unrolled(program, bytes, length, context, held, text, text_length, refusal);
    return ebpf_program_load(program, bytes, length, context, held, text, text_length, refusal);
}

static ebpf_status load_file(ebpf_program *program, const uint8_t *bytes, size_t length, const char *name, size_t name_length, uint32_t context,
                             uint32_t held, bool is_unrolled, char *text, size_t text_length, ebpf_refusal *refusal) {
    if (is_unrolled) return ebpf_program_load_elf_unrolled(program, bytes, length, name, name_length, context, held, text, text_length, refusal);
    return ebpf_program_load_elf(program, bytes, length, name, name_length, context, held, text, text_length, refusal);
}

ebpf_status ebpfhost_load(ebpfhost_program **made, const uint8_t *bytes, size_t length, const char *name, size_t name_length, uint32_t context,
                          uint32_t held, bool is_unrolled, char *text, size_t text_length, ebpf_refusal *refusal) {
    ebpfhost_program *program = new_line();
    ebpf_status status = EBPF_NO_MEMORY;
    if (program && name) {
        status = load_file(program_of(program), bytes, length, name, name_length, context, held, is_unrolled, text, text_length, refusal);
    } else if (program) {
        status = load_slots(program_of(program), bytes, length, context, held, is_unrolled, text, text_length, refusal);
    }
    if (status == EBPF_DONE) *made = program;
    else free(program);
    return status;
}

ebpf_status ebpfhost_functions(const uint8_t *bytes, size_t length, ebpf_function *functions, size_t functions_length, size_t *count, char *text,
                               size_t text_length, ebpf_refusal *refusal) {
    return ebpf_elf_functions(bytes, length, functions, functions_length, count, text, text_length, refusal);
}

ebpf_status ebpfhost_share(ebpfhost_program **made, const ebpfhost_program *program) {
    ebpfhost_program *other = new_line();
    ebpf_status status = other ? ebpf_program_share(program_of(other), program_of(program)) : EBPF_NO_MEMORY;
    if (status == EBPF_DONE) *made = other;
    else free(other);
    return status;
}

ebpf_status ebpfhost_new_machine(ebpfhost_runner **made, uint32_t pages) {
    ebpfhost_runner *runner = new_line();
    ebpf_status status = runner ? ebpf_machine_new(&runner_of(runner)->machine, pages) : EBPF_NO_MEMORY;
    if (status == EBPF_DONE) *made = runner;
    else free(runner);
    return status;
}

ebpf_status ebpfhost_new_shared(ebpfhost_shared **made, uint32_t pages, uint32_t workers) {
    ebpfhost_shared *shared = new_line();
    ebpf_status status = shared ? ebpf_shared_new(shared_of(shared), pages, workers) : EBPF_NO_MEMORY;
    if (status == EBPF_DONE) *made = shared;
    else free(shared);
    return status;
}

ebpf_status ebpfhost_open(ebpfhost_runner **made, ebpfhost_shared *shared) {
    ebpfhost_runner *runner = new_line();
    ebpf_status status = runner ? ebpf_worker_open(&runner_of(runner)->worker, shared_of(shared)) : EBPF_NO_MEMORY;
    if (status == EBPF_DONE) runner_of(runner)->is_worker = true, *made = runner;
    else free(runner);
    return status;
}

const char *ebpfhost_version(void) { return ebpf_host_version(); }

uint32_t ebpfhost_context(const ebpfhost_program *program) { return ebpf_program_context(program_of(program)); }
uint32_t ebpfhost_held(const ebpfhost_program *program) { return ebpf_program_held(program_of(program)); }
uint32_t ebpfhost_slots(const ebpfhost_program *program) { return ebpf_program_slots(program_of(program)); }

void ebpfhost_free_program(ebpfhost_program *program) {
    ebpf_program_free(program_of(program));
    free(program);
}

void ebpfhost_free_runner(ebpfhost_runner *runner) {
    ebpf_machine_free(&runner_of(runner)->machine);
    ebpf_worker_close(&runner_of(runner)->worker);
    free(runner);
}

void ebpfhost_free_shared(ebpfhost_shared *shared) {
    ebpf_shared_free(shared_of(shared));
    free(shared);
}

ebpf_status ebpfhost_run(ebpfhost_runner *runner, const ebpfhost_program *program, const uint8_t *context, size_t context_length, uint64_t limit,
                         uint64_t *output, size_t output_length, ebpf_report *report) {
    struct runner *by = runner_of(runner);
    if (by->is_worker) {
        return ebpf_worker_run(&by->worker, program_of(program), context, context_length, limit, output, output_length, report);
    }
    return ebpf_machine_run(&by->machine, program_of(program), context, context_length, limit, output, output_length, report);
}

ebpf_status ebpfhost_run_padded(ebpfhost_runner *runner, const ebpfhost_program *program, const uint8_t *context, size_t context_length,
                                uint64_t limit, uint64_t *output, size_t output_length, ebpf_report *report) {
    struct runner *by = runner_of(runner);
    if (by->is_worker) {
        return ebpf_worker_run_padded(&by->worker, program_of(program), context, context_length, limit, output, output_length, report);
    }
    return ebpf_machine_run_padded(&by->machine, program_of(program), context, context_length, limit, output, output_length, report);
}

ebpf_status ebpfhost_run_batch(ebpfhost_runner *runner, const ebpfhost_program *program, const uint8_t *contexts, size_t contexts_length,
                               uint64_t limit, ebpf_report *reports, size_t count, size_t *done) {
    struct runner *by = runner_of(runner);
    if (by->is_worker) {
        return ebpf_worker_run_batch(&by->worker, program_of(program), contexts, contexts_length, limit, reports, count, done);
    }
    return ebpf_machine_run_batch(&by->machine, program_of(program), contexts, contexts_length, limit, reports, count, done);
}

ebpf_status ebpfhost_put(ebpfhost_runner *runner, uint32_t kind, const uint8_t *bytes, size_t length, bool *replaced) {
    struct runner *by = runner_of(runner);
    if (by->is_worker) return ebpf_worker_put(&by->worker, kind, bytes, length, replaced);
    return ebpf_machine_put(&by->machine, kind, bytes, length, replaced);
}

ebpf_status ebpfhost_take(ebpfhost_runner *runner, uint32_t kind, uint8_t *bytes, size_t length, bool *found) {
    struct runner *by = runner_of(runner);
    if (by->is_worker) return ebpf_worker_take(&by->worker, kind, bytes, length, found);
    return ebpf_machine_take(&by->machine, kind, bytes, length, found);
}

ebpf_status ebpfhost_reap_machine(ebpfhost_runner *runner) { return ebpf_machine_reap(&runner_of(runner)->machine); }

ebpf_status ebpfhost_reap_shared(ebpfhost_shared *shared, uint32_t *pages) { return ebpf_shared_reap(shared_of(shared), pages); }

ebpf_status ebpfhost_close_shared(ebpfhost_shared *shared, ebpf_totals *totals) { return ebpf_shared_close(shared_of(shared), totals); }
