/* A host that was compiled with the header of 0.1, and runs over the shared library of any later version with the same soname: it declares what that
 * header had by itself, and isn't changed when the header is. What the library writes has to end where this host's structs do: bytes after each
 * have to be as they were. The argument is the object file two.o of tests/objects. */
#undef NDEBUG
#include <assert.h>
#include <stdbool.h>
#include <stddef.h>
#include <stdint.h>
#include <stdio.h>
#include <string.h>

enum { DONE = 0, REFUSED = 1, CONTEXT = 4, EMPTY = 5, BUSY = 11 }; /* statuses */

typedef struct { void *word; } handle;

struct refusal {
    char code[4];
    uint32_t slot;
    uint64_t length;
};

struct function {
    char name[256], section[256];
    uint64_t slots;
};

struct report {
    uint64_t exit, executed, peak, outputs, granted, refused, fetched, missed;
    bool exited;
};

struct totals {
    struct {
        uint64_t allocs, frees, nulls, busy, missing, foreign, puts, gets, left;
    } kinds[3];
    uint64_t clashes, strays;
};

const char *ebpf_host_version(void);
uint32_t ebpf_program_load(handle *program, const uint8_t *bytes, size_t length, uint32_t context, uint32_t held, char *text, size_t text_length,
                           struct refusal *refusal);
uint32_t ebpf_program_load_elf(handle *program, const uint8_t *bytes, size_t length, const char *name, size_t name_length, uint32_t context,
                               uint32_t held, char *text, size_t text_length, struct refusal *refusal);
uint32_t ebpf_elf_functions(const uint8_t *bytes, size_t length, struct function *functions, size_t functions_length, size_t *count, char *text,
                            size_t text_length, struct refusal *refusal);
uint32_t ebpf_program_share(handle *other, const handle *program);
uint32_t ebpf_program_context(const handle *program), ebpf_program_held(const handle *program), ebpf_program_slots(const handle *program);
void ebpf_program_free(handle *program);
uint32_t ebpf_machine_new(handle *machine, uint32_t pages);
uint32_t ebpf_machine_run(handle *machine, const handle *program, const uint8_t *context, size_t context_length, uint64_t limit, uint64_t *output,
                          size_t output_length, struct report *report);
uint32_t ebpf_machine_run_batch(handle *machine, const handle *program, const uint8_t *contexts, size_t contexts_length, uint64_t limit,
                                struct report *reports, size_t count, size_t *done);
uint32_t ebpf_machine_put(handle *machine, uint32_t kind, const uint8_t *bytes, size_t length, bool *replaced);
uint32_t ebpf_machine_take(handle *machine, uint32_t kind, uint8_t *bytes, size_t length, bool *found);
uint32_t ebpf_machine_reap(handle *machine);
void ebpf_machine_free(handle *machine);
uint32_t ebpf_shared_new(handle *shared, uint32_t pages, uint32_t workers);
uint32_t ebpf_worker_open(handle *worker, handle *shared);
uint32_t ebpf_worker_run(handle *worker, const handle *program, const uint8_t *context, size_t context_length, uint64_t limit, uint64_t *output,
                         size_t output_length, struct report *report);
void ebpf_worker_close(handle *worker);
uint32_t ebpf_shared_close(handle *shared, struct totals *totals);

/* What the library writes, each with bytes after it. */
static struct {
    struct refusal refusal;
    char after_refusal[64];
    struct function functions[2];
    char after_functions[64];
    struct report reports[3];
    char after_reports[64];
    struct totals totals;
    char after_totals[64];
    handle program, other, machine, shared, worker;
    char after_handles[64];
} all;

static bool is_marked(const char *bytes) {
    for (int i = 0; i < 64; i++)
        if (bytes[i] != 'x') return false;
    return true;
}

static bool is_within(void) {
    return is_marked(all.after_refusal) && is_marked(all.after_functions) && is_marked(all.after_reports) && is_marked(all.after_totals) &&
           is_marked(all.after_handles);
}

static uint8_t object[1 << 14];
static char text[1024], none;
static uint64_t number; /* for runs whose output isn't read */

static void loads_and_lists(const char *path) {
    FILE *file = fopen(path, "rb");
    assert(file);
    size_t length = fread(object, 1, sizeof object, file), count = 0;
    assert(feof(file));
    fclose(file);
    assert(ebpf_elf_functions(object, length, all.functions, 2, &count, text, sizeof text, &all.refusal) == DONE && count == 2);
    assert(!strcmp(all.functions[1].name, "largest") && !strcmp(all.functions[1].section, ".text") && all.functions[1].slots == 11);
    assert(ebpf_program_load_elf(&all.program, object, length, "largest", 7, 15, 0, text, sizeof text, &all.refusal) == REFUSED);
    assert(!memcmp(all.refusal.code, "V8\0", 4) && all.refusal.slot == 7 && all.refusal.length == strlen(text));
    assert(strstr(text, "\n  ./two.c:14:7: if (words[i] > most)\n")); /* the line of C of the slot */
    assert(ebpf_program_load_elf(&all.program, object, length, "largest", 7, 16, 3, text, sizeof text, &all.refusal) == DONE);
    assert(ebpf_program_context(&all.program) == 16 && ebpf_program_held(&all.program) == 3 && ebpf_program_slots(&all.program) == 11);
    assert(ebpf_program_share(&all.other, &all.program) == DONE && ebpf_program_load(&all.other, object, 7, 0, 0, &none, 0, &all.refusal) == REFUSED);
}

/* A run, a batch and an object on a shelf; and the same run by a worker. */
static void runs(void) {
    const uint32_t numbers[12] = {1, 5, 3, 4, 0, 0, 0, 9, 2, 2, 2, 2};
    const uint8_t *contexts = (const uint8_t *)numbers;
    size_t done = 0;
    bool said = true;
    assert(ebpf_machine_new(&all.machine, 1) == DONE);
    assert(ebpf_machine_run(&all.machine, &all.program, contexts, 15, 4096, &number, 0, all.reports) == CONTEXT);
    assert(ebpf_machine_run(&all.machine, &all.program, contexts, 16, 4096, &number, 0, &all.reports[2]) == DONE);
    assert(all.reports[2].exited && all.reports[2].exit == 5 && all.reports[2].executed > 8 && !all.reports[2].outputs && is_within());
    assert(ebpf_machine_run_batch(&all.machine, &all.program, contexts, 48, 4096, all.reports, 3, &done) == DONE && done == 3);
    assert(all.reports[0].exit == 5 && all.reports[1].exit == 9 && all.reports[2].exit == 2 && all.reports[1].exited);
    assert(ebpf_machine_put(&all.machine, 1, contexts, 48, &said) == DONE && !said);
    assert(ebpf_machine_take(&all.machine, 1, object, 64, &said) == DONE && said && !memcmp(object, contexts, 48));
    assert(ebpf_machine_reap(&all.machine) == DONE);
    assert(ebpf_shared_new(&all.shared, 1, 1) == DONE && ebpf_worker_open(&all.worker, &all.shared) == DONE);
    assert(ebpf_worker_run(&all.worker, &all.program, contexts + 16, 16, 4096, &number, 0, &all.reports[2]) == DONE && all.reports[2].exit == 9);
    assert(ebpf_shared_close(&all.shared, &all.totals) == BUSY);
    ebpf_worker_close(&all.worker);
    assert(ebpf_shared_close(&all.shared, &all.totals) == DONE && !all.totals.kinds[2].allocs && !all.totals.strays);
    ebpf_machine_free(&all.machine), ebpf_program_free(&all.program), ebpf_program_free(&all.other);
    assert(ebpf_machine_run(&all.machine, &all.program, contexts, 16, 4096, &number, 0, all.reports) == EMPTY);
}

int main(int count, char **words) {
    assert(count == 2);
    memset(&all, 'x', sizeof all);
    all.program = all.other = all.machine = all.shared = all.worker = (handle){NULL};
    loads_and_lists(words[1]);
    runs();
    assert(is_within());
    puts(ebpf_host_version());
    return 0;
}
