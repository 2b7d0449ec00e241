/* The functions of ebpf_host.h as Go calls them: handles in C memory, and one function for what a machine and a worker both do. */
#ifndef EBPFHOST_GLUE_H
#define EBPFHOST_GLUE_H

#include <ebpf_host.h>

/* What glue.c keeps here. To Go these have no pointers, so that no call has to look whether they are Go's. */
typedef struct ebpfhost_program { uint64_t line[8]; } ebpfhost_program;
typedef struct ebpfhost_runner { uint64_t line[8]; } ebpfhost_runner; /* a machine or a worker */
typedef struct ebpfhost_shared { uint64_t line[8]; } ebpfhost_shared;

/* Each of these makes a handle, and writes it if the status is done. A load is of an object file if it has a name, and otherwise of slots. */
ebpf_status ebpfhost_load(ebpfhost_program **made, const uint8_t *bytes, size_t length, const char *name, size_t name_length, uint32_t context,
                          uint32_t held, bool is_unrolled, char *text, size_t text_length, ebpf_refusal *refusal);
ebpf_status ebpfhost_share(ebpfhost_program **made, const ebpfhost_program *program);
ebpf_status ebpfhost_new_machine(ebpfhost_runner **made, uint32_t pages);
ebpf_status ebpfhost_new_shared(ebpfhost_shared **made, uint32_t pages, uint32_t workers);
ebpf_status ebpfhost_open(ebpfhost_runner **made, ebpfhost_shared *shared);

/* The functions of an object file, as far as there is room. */
ebpf_status ebpfhost_functions(const uint8_t *bytes, size_t length, ebpf_function *functions, size_t functions_length, size_t *count, char *text,
                               size_t text_length, ebpf_refusal *refusal);

/* Each of these frees what a handle holds, and the handle. */
void ebpfhost_free_program(ebpfhost_program *program);
void ebpfhost_free_runner(ebpfhost_runner *runner);
void ebpfhost_free_shared(ebpfhost_shared *shared);

/* The library's version. */
const char *ebpfhost_version(void);

/* What a program is. */
uint32_t ebpfhost_context(const ebpfhost_program *program);
uint32_t ebpfhost_held(const ebpfhost_program *program);
uint32_t ebpfhost_slots(const ebpfhost_program *program);

ebpf_status ebpfhost_run(ebpfhost_runner *runner, const ebpfhost_program *program, const uint8_t *context, size_t context_length, uint64_t limit,
                         uint64_t *output, size_t output_length, ebpf_report *report);
ebpf_status ebpfhost_run_padded(ebpfhost_runner *runner, const ebpfhost_program *program, const uint8_t *context, size_t context_length,
                                uint64_t limit, uint64_t *output, size_t output_length, ebpf_report *report);
ebpf_status ebpfhost_run_batch(ebpfhost_runner *runner, const ebpfhost_program *program, const uint8_t *contexts, size_t contexts_length,
                               uint64_t limit, ebpf_report *reports, size_t count, size_t *done);
ebpf_status ebpfhost_put(ebpfhost_runner *runner, uint32_t kind, const uint8_t *bytes, size_t length, bool *replaced);
ebpf_status ebpfhost_take(ebpfhost_runner *runner, uint32_t kind, uint8_t *bytes, size_t length, bool *found);
ebpf_status ebpfhost_reap_machine(ebpfhost_runner *runner);
ebpf_status ebpfhost_reap_shared(ebpfhost_shared *shared, uint32_t *pages);

/* Closes what workers shared, and leaves its handle empty if the status is done: it is still to be freed. */
ebpf_status ebpfhost_close_shared(ebpfhost_shared *shared, ebpf_totals *totals);

#endif
