/* Programs of eBPF (RFC 9669) in a host's own process: loaded and verified once, run any number of times.
 *
 * A program that is loaded never traps: on any context, it reads and writes nothing outside its own frame, its context and its
 * objects, does at most as many instructions as it has, holds at most as many objects as it declared, and gives each of them back or
 * leaves it on a shelf.
 *
 * Programs run on a machine, which has caches and shelves of its own, or by workers, each on a thread of the host, which share caches and
 * shelves: what one leaves on a shelf, another may find there.
 *
 * Handles. A handle is a struct of one word. Set it to zero before its first call ("ebpf_program p = {0};"), pass it by address, never
 * copy it, and free it at the end. An empty handle may be passed to every function: the call returns EBPF_EMPTY, and freeing it does
 * nothing. A call that fails leaves a handle as it was, and writes nothing else: what a report, an output, a text or a refusal points to
 * is as it was before, but for a refusal and its text where the call returns EBPF_REFUSED, and for the runs of a batch before one that
 * finds no memory.
 *
 * Pointers. A pointer with a length has to point to that many items, which nothing else touches during the call; with length 0 it may be
 * null. No two of the pointers of one call may overlap, but for two that are only read.
 *
 * Threads. Nothing here starts a thread, takes a lock or keeps a global. A handle is used by one thread at a time, which may differ from
 * call to call where something orders the calls (a lock, a join). But a handle of a program that a function takes by const may be in any
 * number of such calls at once, on any threads: threads that run at the same time have a machine or a worker each, and share one program's
 * handle, or have by ebpf_program_share a handle each. A run and a batch write the word of no handle, nor do put, take and reap, so the
 * handles of several threads may lie side by side, as in an array: only loads, shares into a handle, a new machine, what is new for
 * workers, a worker that is opened or closed, ebpf_shared_close and frees write a word.
 *
 * Memory comes from malloc, realloc and free. Where there is none, the call answers EBPF_NO_MEMORY. Not to be called from a signal
 * handler, nor between fork and exec in a process with threads. */
#ifndef EBPF_HOST_H
#define EBPF_HOST_H

#include <stdbool.h>
#include <stddef.h>
#include <stdint.h>

/* The version of this header, and of the library that it is for. A newer library serves a host that was compiled with this header if its version
 * has the same first number, which is also that of its soname: it has all that is declared here, with the same parameters, numbers and structs,
 * and its functions return no other statuses. What a later version adds are functions, constants and structs with names of their own. */
#define EBPF_HOST_VERSION "0.1.0"
#define EBPF_HOST_VERSION_MAJOR 0
#define EBPF_HOST_VERSION_MINOR 1
#define EBPF_HOST_VERSION_PATCH 0

#ifdef __cplusplus
extern "C" {
#endif

/* The version of the library that is linked, as EBPF_HOST_VERSION is that of this header: a text such as "0.1.0", which nobody frees. */
const char *ebpf_host_version(void);

/* Whether the library that is linked or loaded serves this header: its version has the same first number, and no smaller second one. A host that
 * is linked with the shared library may run over another one than it was linked with: an older one lacks what was added since. */
static inline bool ebpf_host_serves(void) {
    int numbers[3] = {0, 0, 0}, at = 0;
    for (const char *text = ebpf_host_version(); *text && at < 3; text++) {
        if (*text == '.') at++;
        else numbers[at] = 10 * numbers[at] + (*text - '0');
    }
    return numbers[0] == EBPF_HOST_VERSION_MAJOR && numbers[1] >= EBPF_HOST_VERSION_MINOR;
}

/* How a call ended. */
typedef uint32_t ebpf_status;
enum {
    EBPF_DONE = 0,        /* it did what it says */
    EBPF_REFUSED = 1,     /* the bytes are or have no program that can be run: see ebpf_refusal */
    EBPF_DECLARATION = 2, /* more than 4,096 bytes of context, or more than 64 objects, are declared */
    EBPF_PAGES = 3,       /* a machine has 1 to 256 pages, and so has what workers share */
    EBPF_CONTEXT = 4,     /* the context, or that of a batch, doesn't have the length for which the program was loaded */
    EBPF_EMPTY = 5,       /* a handle holds nothing */
    EBPF_NO_MEMORY = 6,   /* an allocation failed */
    EBPF_KIND = 7,        /* no kind of object has the number */
    EBPF_LENGTH = 8,      /* an object of the kind has fewer bytes */
    EBPF_NO_OBJECT = 9,   /* there is no page, or no memory, for one more object */
    EBPF_WORKERS = 10,    /* 1 to 64 workers share caches and shelves */
    EBPF_BUSY = 11        /* as many workers are open as there may be; to close what they share, none may be */
};

/* The kinds of object, each with a shelf on a machine or among workers, by the numbers that programs pass to new and to swap. */
enum {
    EBPF_CELL = 0,   /* 16 bytes, first all 0 */
    EBPF_RECORD = 1, /* 64 bytes, first all 0xff */
    EBPF_BLOCK = 2   /* 512 bytes, first all 0x5a */
};

/* A status in words. */
static inline const char *ebpf_status_text(ebpf_status status) {
    switch (status) {
    case EBPF_DONE: return "done";
    case EBPF_REFUSED: return "refused";
    case EBPF_DECLARATION: return "declaration out of range";
    case EBPF_PAGES: return "number of pages out of range";
    case EBPF_CONTEXT: return "context of another length";
    case EBPF_EMPTY: return "empty handle";
    case EBPF_NO_MEMORY: return "out of memory";
    case EBPF_KIND: return "no such kind of object";
    case EBPF_LENGTH: return "more bytes than an object of the kind has";
    case EBPF_NO_OBJECT: return "no page or memory for an object";
    case EBPF_WORKERS: return "number of workers out of range";
    case EBPF_BUSY: return "workers are open";
    default: return "unknown status";
    }
}

/* A program that was accepted. */
typedef struct ebpf_program { void *word; } ebpf_program;

/* The memory of runs, and the objects that they take, give back and leave on shelves: one run at a time, of any program. */
typedef struct ebpf_machine { void *word; } ebpf_machine;

/* What workers share: a cache of objects of each kind, a shelf of each kind, and the pages on which the objects are. */
typedef struct ebpf_shared { void *word; } ebpf_shared;

/* A worker: the memory of its runs, and its way to what is shared. It does one run at a time, of any program. */
typedef struct ebpf_worker { void *word; } ebpf_worker;

/* Why bytes are refused. */
typedef struct ebpf_refusal {
    char code[4];    /* the code, as "V8" or "O1", followed by zeros */
    uint32_t slot;   /* the lowest slot of eight bytes that is at fault, 0 if the sentence names none; see also the loads */
    uint64_t length; /* how many bytes the text has, without the zero that ends it */
} ebpf_refusal;

/* A function of an object file. */
typedef struct ebpf_function {
    char name[256];    /* its name, at most 255 bytes of it, and zeros after it */
    char section[256]; /* the name of its section, likewise */
    uint64_t slots;    /* how many slots of eight bytes it has */
} ebpf_function;

/* What a run did. */
typedef struct ebpf_report {
    uint64_t exit;     /* the number that it returned; 0 where it did not exit */
    uint64_t executed; /* how many instructions it did */
    uint64_t peak;     /* the most objects that it held at one time */
    uint64_t outputs;  /* how many numbers it added to its output */
    uint64_t granted;  /* how many calls of new were granted an object */
    uint64_t refused;  /* how many were answered null */
    uint64_t fetched;  /* how many calls of swap found an object on the shelf */
    uint64_t missed;   /* how many found nothing there */
    bool exited;       /* whether it exited within the limit */
} ebpf_report;

/* What all workers did to the objects of one kind: frees = allocs, missing + frees = allocs + foreign, and puts = gets + left. */
typedef struct ebpf_kind_totals {
    uint64_t allocs;  /* how often a worker was given an object */
    uint64_t frees;   /* how often one came back, counting the one that was on the shelf at the end */
    uint64_t nulls;   /* how often one was refused for want of a page or of memory */
    uint64_t busy;    /* how often one was refused because another worker was at the slabs or the pages for too long */
    uint64_t missing; /* how many objects had not come back when all was closed */
    uint64_t foreign; /* how many came back that had not been given */
    uint64_t puts;    /* how often an object was put on the shelf */
    uint64_t gets;    /* how often one was got from it */
    uint64_t left;    /* how many were on it at the end: none or one */
} ebpf_kind_totals;

/* The totals of what workers shared, when it was closed. */
typedef struct ebpf_totals {
    ebpf_kind_totals kinds[3]; /* by the numbers of the kinds */
    uint64_t clashes;          /* how many objects went back since another run owned them */
    uint64_t strays;           /* how many objects off a shelf went back since another run owned them */
} ebpf_totals;

/* In each version with the same first number a handle has 8 bytes, a refusal 16, a function 520, a report 72, and totals have 232. */

#if defined(__cplusplus)
#define EBPF_HOST_SIZE(type, size) static_assert(sizeof(type) == (size), "another layout of " #type)
#elif defined(__STDC_VERSION__) && __STDC_VERSION__ >= 201112L
#define EBPF_HOST_SIZE(type, size) _Static_assert(sizeof(type) == (size), "another layout of " #type)
#endif
#ifdef EBPF_HOST_SIZE
EBPF_HOST_SIZE(ebpf_program, 8);
EBPF_HOST_SIZE(ebpf_machine, 8);
EBPF_HOST_SIZE(ebpf_shared, 8);
EBPF_HOST_SIZE(ebpf_worker, 8);
EBPF_HOST_SIZE(ebpf_refusal, 16);
EBPF_HOST_SIZE(ebpf_function, 520);
EBPF_HOST_SIZE(ebpf_report, 72);
EBPF_HOST_SIZE(ebpf_totals, 232);
#undef EBPF_HOST_SIZE
#endif

/* Loads a program: its raw instruction slots, eight bytes each, as its text section has them. It is to be run on contexts of `context`
 * bytes, 0 to 4096, and may hold at most `held` objects at one time, 0 to 64. What the handle held before is freed.
 *
 * EBPF_REFUSED: the bytes are refused; *refusal says by which code and where, and text begins with a sentence that says why, a line
 * indented by two blanks, and a zero, as far as text_length bytes have room: where refusal->length < text_length, text may be printed
 * by %s. 1,024 bytes are mostly enough. EBPF_DECLARATION: context or held is too large. EBPF_NO_MEMORY. */
ebpf_status ebpf_program_load(ebpf_program *program, const uint8_t *bytes, size_t length, uint32_t context, uint32_t held,
                              char *text, size_t text_length, ebpf_refusal *refusal);

/* Loads a function of an object file that a compiler made (clang -target bpfel -c), whose bytes are given: the function of that name, or
 * the file's only function where name_length is 0. Its slots are loaded as by ebpf_program_load.
 *
 * EBPF_REFUSED also where the file has no such program, with the code O1 where the file can't be read, or the name is too long (more than
 * 255 bytes), O2 where no function has the name, O3 where no name is given and there are several functions, and O4 where a slot needs
 * another part of the file. The file is judged before the declaration. Where the file has lines of C (clang -g) that can be read, a second
 * line of text after the sentence is the line of C that the slot came from, "  FILE:LINE:COLUMN: TEXT", and then the zero.
 *
 * A function may read constant data of its file: tables, strings and constants. The program then keeps that data, which comes after the
 * context, and both have at most 4,096 bytes together; `context` is how many bytes the host gives to each run, without the data. O5: the
 * function can't be linked with its data; the slot is one of the function, or 0. The program has one slot more than the function, in front:
 * a slot that is refused by F3, F5 or a code with V is one of that program, and runs count its instructions. The line of C is that of the
 * function's slot. */
ebpf_status ebpf_program_load_elf(ebpf_program *program, const uint8_t *bytes, size_t length, const char *name, size_t name_length,
                                  uint32_t context, uint32_t held, char *text, size_t text_length, ebpf_refusal *refusal);

/* Loads a program as ebpf_program_load does, but its jumps may lead back. Its loops are unrolled first, turn by turn, as far as the verifier
 * knows that a run may go on: each run of the program then ends, and what is run is the unrolled program, which does the same. One without
 * loops is laid out first, so that each jump leads forward, or stays as it is if each does.
 *
 * EBPF_REFUSED also where a loop can't be unrolled into 4,096 slots, with the code F3 and the slot that closes it; it isn't promised that a
 * loop is unrolled if it could be. The text may have some more lines then, of which each says what a branch compares that leads out of the
 * loop, or what is known before the slot. If a program that was laid out is refused, the slot is one of the new program, as `ebpf_run unroll`
 * writes it. Unrolling a loop of many turns takes time and memory: milliseconds, not microseconds. */
ebpf_status ebpf_program_load_unrolled(ebpf_program *program, const uint8_t *bytes, size_t length, uint32_t context, uint32_t held,
                                       char *text, size_t text_length, ebpf_refusal *refusal);

/* Loads a function of an object file as ebpf_program_load_elf does, but its jumps may lead back, as for ebpf_program_load_unrolled. The line
 * of C is the last of the text: that of the slot of the function, also if it was laid out. */
ebpf_status ebpf_program_load_elf_unrolled(ebpf_program *program, const uint8_t *bytes, size_t length, const char *name,
                                           size_t name_length, uint32_t context, uint32_t held, char *text, size_t text_length,
                                           ebpf_refusal *refusal);

/* Lists the functions of an object file, whose bytes are given, in the order of its symbol table: writes each to `functions`, as far as there is
 * room for functions_length of them, and how many the file has to *count. With functions_length 0 it only counts them. The loads take a function
 * by the name that is listed, of several with one name the first, and say whether it can be loaded.
 *
 * EBPF_REFUSED: the file can't be read: the code is O1, the slot 0, and text is as for ebpf_program_load. EBPF_NO_MEMORY: only if the file
 * can't be read. Both leave functions and *count as they were. */
ebpf_status ebpf_elf_functions(const uint8_t *bytes, size_t length, ebpf_function *functions, size_t functions_length, size_t *count, char *text,
                               size_t text_length, ebpf_refusal *refusal);

/* Makes `other` a second handle of the same program, which is not verified again. What it held before is freed. The two handles must
 * differ. EBPF_EMPTY: `program` holds nothing. EBPF_NO_MEMORY. */
ebpf_status ebpf_program_share(ebpf_program *other, const ebpf_program *program);

/* Frees a handle, which is empty then, and with the last one its program. */
void ebpf_program_free(ebpf_program *program);

/* What a program is, 0 of an empty handle: how many bytes of context the host gives to each run, without the data of an object file, and how
 * many objects a run may hold, both as they were declared; and how many slots of eight bytes the program has as it is run, with its loops
 * unrolled: 1 to 4096. */
uint32_t ebpf_program_context(const ebpf_program *program);
uint32_t ebpf_program_held(const ebpf_program *program);
uint32_t ebpf_program_slots(const ebpf_program *program);

/* Makes a machine, whose objects are on at most `pages` pages of 4,096 bytes, 1 to 256; a page is allocated when it is first needed. What
 * the handle held before is freed. EBPF_PAGES, EBPF_NO_MEMORY. */
ebpf_status ebpf_machine_new(ebpf_machine *machine, uint32_t pages);

/* Frees a machine with its objects. The handle is empty then. */
void ebpf_machine_free(ebpf_machine *machine);

/* Gives back each page of a machine on which no object is held or left on a shelf, so that objects of any kind may be there. EBPF_EMPTY. */
ebpf_status ebpf_machine_reap(ebpf_machine *machine);

/* Runs a program on a context of the length for which it was loaded, which has no data of an object file, limit instructions at most; no
 * program does more than 4,096. A run that has not exited by then is given
 * up, which is not an error. Its numbers of output are written to output, as far as output_length of them have room; report->outputs says
 * how many there were. A call of new that finds no page or no memory is answered null, which is not an error. What the run leaves on a
 * shelf is there for the next run on the machine.
 *
 * CAUTION: A RUN THAT IS GIVEN UP TAKES WITH IT WHAT IT HAD TAKEN OFF A SHELF. The shelf is then empty, the object is given back, and its
 * contents are lost. With a limit of at least the program's number of instructions (4,096 is always enough) no run is given up.
 *
 * EBPF_CONTEXT, EBPF_EMPTY, EBPF_NO_MEMORY: nothing was run, and output and report are as they were: test the status, not the report. */
ebpf_status ebpf_machine_run(ebpf_machine *machine, const ebpf_program *program, const uint8_t *context, size_t context_length,
                             uint64_t limit, uint64_t *output, size_t output_length, ebpf_report *report);

/* Runs a program on `count` contexts, one after another in this order, and writes the report of each: as many calls of ebpf_machine_run would,
 * but each run costs less. `contexts` has the contexts one after another, each of the length for which the program was loaded, so
 * contexts_length is count times that length; `reports` has room for count reports. Each run finds on the shelves what the one before it left
 * there. The numbers of output are not written: report.outputs says how many a run added. A limit is for each run by itself, and its CAUTION
 * is that of ebpf_machine_run.
 *
 * *done is how many were run: count with EBPF_DONE, and fewer with EBPF_NO_MEMORY, where the next run found no memory. The reports after those
 * are as they were, and so is the machine after the last of these runs: a call with the rest goes on from there.
 *
 * EBPF_CONTEXT (contexts_length is another), EBPF_EMPTY: nothing was run, and the reports and *done are as they were. */
ebpf_status ebpf_machine_run_batch(ebpf_machine *machine, const ebpf_program *program, const uint8_t *contexts, size_t contexts_length,
                                   uint64_t limit, ebpf_report *reports, size_t count, size_t *done);

/* Leaves an object of a kind on its shelf, as a program's swap does: the next program that exchanges something there gets it. It begins with
 * `length` bytes of `bytes`, and has the rest as a new object of the kind has it. *replaced says whether it is there in place of another,
 * which is given back.
 *
 * EBPF_EMPTY, EBPF_KIND, EBPF_LENGTH, EBPF_NO_OBJECT: each shelf is as it was. */
ebpf_status ebpf_machine_put(ebpf_machine *machine, uint32_t kind, const uint8_t *bytes, size_t length, bool *replaced);

/* Takes what is on the shelf of a kind off it, writes its bytes to `bytes`, as far as length of them have room, and gives the object back.
 * *found says whether something was there; if not, nothing is written to bytes. To read a shelf and leave it as it is, put the bytes back.
 *
 * EBPF_EMPTY, EBPF_KIND. */
ebpf_status ebpf_machine_take(ebpf_machine *machine, uint32_t kind, uint8_t *bytes, size_t length, bool *found);

/* Makes what up to `workers` workers share, 1 to 64: all objects of their runs are on at most `pages` pages of 4,096 bytes, 1 to 256. A page is
 * allocated when it is first needed; the rest is allocated here, and when a worker runs for the first time. What the handle held before is
 * freed as by ebpf_shared_free. EBPF_PAGES, EBPF_WORKERS, EBPF_NO_MEMORY. */
ebpf_status ebpf_shared_new(ebpf_shared *shared, uint32_t pages, uint32_t workers);

/* Opens a worker, which then runs on any thread beside the others. Workers may be opened and closed at any time, also while others run. What
 * the handle held before is closed, but only then: where each worker is open, close it first. EBPF_EMPTY, EBPF_BUSY (each is open),
 * EBPF_NO_MEMORY. */
ebpf_status ebpf_worker_open(ebpf_worker *worker, ebpf_shared *shared);

/* Runs a program as ebpf_machine_run does, over what the workers share. No call waits for another thread: nothing here takes a lock, and a
 * worker that is stopped, or whose thread is dead, stops none of the others. A call of new is also answered null if other workers are
 * at the slabs or the pages for too long. A swap finds what some worker left on that shelf, or the host did, or nothing; which of
 * several workers gets it is not promised, but only one does. The CAUTION of ebpf_machine_run holds here too.
 *
 * EBPF_CONTEXT, EBPF_EMPTY, EBPF_NO_MEMORY: nothing was run, and output and report are as they were. */
ebpf_status ebpf_worker_run(ebpf_worker *worker, const ebpf_program *program, const uint8_t *context, size_t context_length, uint64_t limit,
                            uint64_t *output, size_t output_length, ebpf_report *report);

/* Runs a program on many contexts, as ebpf_machine_run_batch does, over what the workers share: other workers run meanwhile, so what a run leaves
 * on a shelf, the next may not find. EBPF_CONTEXT, EBPF_EMPTY, EBPF_NO_MEMORY, as there. */
ebpf_status ebpf_worker_run_batch(ebpf_worker *worker, const ebpf_program *program, const uint8_t *contexts, size_t contexts_length,
                                  uint64_t limit, ebpf_report *reports, size_t count, size_t *done);

/* Leaves an object of a kind on the shelf that all workers share, as ebpf_machine_put does on that of a machine, and takes the object that is
 * there from it, as ebpf_machine_take does. Other workers run meanwhile: what was put may be gone at once, and only one gets it. *replaced says
 * whether another object came off the shelf for it, which is given back.
 *
 * EBPF_EMPTY, EBPF_KIND, EBPF_LENGTH, EBPF_NO_OBJECT: nothing was put. */
ebpf_status ebpf_worker_put(ebpf_worker *worker, uint32_t kind, const uint8_t *bytes, size_t length, bool *replaced);
ebpf_status ebpf_worker_take(ebpf_worker *worker, uint32_t kind, uint8_t *bytes, size_t length, bool *found);

/* Closes a worker: the handle is empty then, and another worker may be opened in its place. Any thread may do so. Free what it holds
 * by this; what it was granted and gave back stays counted. */
void ebpf_worker_close(ebpf_worker *worker);

/* Gives back each page of which no object is held, on a shelf, or kept by a worker, so that objects of any kind may be there. *pages is how
 * many pages were. A worker that is open keeps a few objects of each kind for its next runs. Workers may run meanwhile: what one of them is at
 * is left. EBPF_EMPTY. */
ebpf_status ebpf_shared_reap(ebpf_shared *shared, uint32_t *pages);

/* Closes what workers shared, when no worker is open: what is on the shelves goes back, all is freed, and *totals has the sums of what all
 * workers did since ebpf_shared_new. They are exact. The handle is empty then. EBPF_EMPTY. EBPF_BUSY: a worker is open, or a
 * thread isn't through with closing one; nothing changed, and *totals is as it was. */
ebpf_status ebpf_shared_close(ebpf_shared *shared, ebpf_totals *totals);

/* Frees the handle. Workers that are open go on, and all is freed with the last of them; none can be opened any more. */
void ebpf_shared_free(ebpf_shared *shared);

/* The library's own functions take no null pointer. The names of those with a length mean these from here on, which pass one that isn't
 * null where the length is 0. A caller that doesn't compile this header, as from Python, has to do so itself. */
static inline ebpf_status ebpf_program_load_or_null(ebpf_program *program, const uint8_t *bytes, size_t length, uint32_t context,
                                                    uint32_t held, char *text, size_t text_length, ebpf_refusal *refusal) {
    uint8_t no_bytes = 0;
    char no_text = 0;
    return ebpf_program_load(program, bytes || length ? bytes : &no_bytes, length, context, held,
                             text || text_length ? text : &no_text, text_length, refusal);
}
#define ebpf_program_load ebpf_program_load_or_null

static inline ebpf_status ebpf_program_load_elf_or_null(ebpf_program *program, const uint8_t *bytes, size_t length, const char *name,
                                                        size_t name_length, uint32_t context, uint32_t held, char *text, size_t text_length,
                                                        ebpf_refusal *refusal) {
    uint8_t no_bytes = 0;
    char no_text = 0;
    return ebpf_program_load_elf(program, bytes || length ? bytes : &no_bytes, length, name || name_length ? name : "", name_length, context,
                                 held, text || text_length ? text : &no_text, text_length, refusal);
}
#define ebpf_program_load_elf ebpf_program_load_elf_or_null

static inline ebpf_status ebpf_program_load_unrolled_or_null(ebpf_program *program, const uint8_t *bytes, size_t length, uint32_t context,
                                                             uint32_t held, char *text, size_t text_length, ebpf_refusal *refusal) {
    uint8_t no_bytes = 0;
    char no_text = 0;
    return ebpf_program_load_unrolled(program, bytes || length ? bytes : &no_bytes, length, context, held,
                                      text || text_length ? text : &no_text, text_length, refusal);
}
#define ebpf_program_load_unrolled ebpf_program_load_unrolled_or_null

static inline ebpf_status ebpf_program_load_elf_unrolled_or_null(ebpf_program *program, const uint8_t *bytes, size_t length,
                                                                 const char *name, size_t name_length, uint32_t context, uint32_t held,
                                                                 char *text, size_t text_length, ebpf_refusal *refusal) {
    uint8_t no_bytes = 0;
    char no_text = 0;
    return ebpf_program_load_elf_unrolled(program, bytes || length ? bytes : &no_bytes, length, name || name_length ? name : "", name_length,
                                          context, held, text || text_length ? text : &no_text, text_length, refusal);
}
#define ebpf_program_load_elf_unrolled ebpf_program_load_elf_unrolled_or_null

static inline ebpf_status ebpf_elf_functions_or_null(const uint8_t *bytes, size_t length, ebpf_function *functions, size_t functions_length,
                                                     size_t *count, char *text, size_t text_length, ebpf_refusal *refusal) {
    uint8_t no_bytes = 0;
    ebpf_function no_function;
    char no_text = 0;
    return ebpf_elf_functions(bytes || length ? bytes : &no_bytes, length, functions || functions_length ? functions : &no_function,
                              functions_length, count, text || text_length ? text : &no_text, text_length, refusal);
}
#define ebpf_elf_functions ebpf_elf_functions_or_null

static inline ebpf_status ebpf_machine_run_or_null(ebpf_machine *machine, const ebpf_program *program, const uint8_t *context,
                                                   size_t context_length, uint64_t limit, uint64_t *output, size_t output_length,
                                                   ebpf_report *report) {
    uint8_t no_context = 0;
    uint64_t no_output = 0;
    return ebpf_machine_run(machine, program, context || context_length ? context : &no_context, context_length, limit,
                            output || output_length ? output : &no_output, output_length, report);
}
#define ebpf_machine_run ebpf_machine_run_or_null

static inline ebpf_status ebpf_machine_run_batch_or_null(ebpf_machine *machine, const ebpf_program *program, const uint8_t *contexts,
                                                         size_t contexts_length, uint64_t limit, ebpf_report *reports, size_t count,
                                                         size_t *done) {
    uint8_t no_context = 0;
    ebpf_report no_report;
    return ebpf_machine_run_batch(machine, program, contexts || contexts_length ? contexts : &no_context, contexts_length, limit,
                                  reports || count ? reports : &no_report, count, done);
}
#define ebpf_machine_run_batch ebpf_machine_run_batch_or_null

static inline ebpf_status ebpf_machine_put_or_null(ebpf_machine *machine, uint32_t kind, const uint8_t *bytes, size_t length, bool *replaced) {
    uint8_t no_bytes = 0;
    return ebpf_machine_put(machine, kind, bytes || length ? bytes : &no_bytes, length, replaced);
}
#define ebpf_machine_put ebpf_machine_put_or_null

static inline ebpf_status ebpf_machine_take_or_null(ebpf_machine *machine, uint32_t kind, uint8_t *bytes, size_t length, bool *found) {
    uint8_t no_bytes = 0;
    return ebpf_machine_take(machine, kind, bytes || length ? bytes : &no_bytes, length, found);
}
#define ebpf_machine_take ebpf_machine_take_or_null

static inline ebpf_status ebpf_worker_run_or_null(ebpf_worker *worker, const ebpf_program *program, const uint8_t *context,
                                                  size_t context_length, uint64_t limit, uint64_t *output, size_t output_length,
                                                  ebpf_report *report) {
    uint8_t no_context = 0;
    uint64_t no_output = 0;
    return ebpf_worker_run(worker, program, context || context_length ? context : &no_context, context_length, limit,
                           output || output_length ? output : &no_output, output_length, report);
}
#define ebpf_worker_run ebpf_worker_run_or_null

static inline ebpf_status ebpf_worker_run_batch_or_null(ebpf_worker *worker, const ebpf_program *program, const uint8_t *contexts,
                                                        size_t contexts_length, uint64_t limit, ebpf_report *reports, size_t count,
                                                        size_t *done) {
    uint8_t no_context = 0;
    ebpf_report no_report;
    return ebpf_worker_run_batch(worker, program, contexts || contexts_length ? contexts : &no_context, contexts_length, limit,
                                 reports || count ? reports : &no_report, count, done);
}
#define ebpf_worker_run_batch ebpf_worker_run_batch_or_null

static inline ebpf_status ebpf_worker_put_or_null(ebpf_worker *worker, uint32_t kind, const uint8_t *bytes, size_t length, bool *replaced) {
    uint8_t no_bytes = 0;
    return ebpf_worker_put(worker, kind, bytes || length ? bytes : &no_bytes, length, replaced);
}
#define ebpf_worker_put ebpf_worker_put_or_null

static inline ebpf_status ebpf_worker_take_or_null(ebpf_worker *worker, uint32_t kind, uint8_t *bytes, size_t length, bool *found) {
    uint8_t no_bytes = 0;
    return ebpf_worker_take(worker, kind, bytes || length ? bytes : &no_bytes, length, found);
}
#define ebpf_worker_take ebpf_worker_take_or_null

/* Writes a context of the length for which a program was loaded into `padded`, which has room for 4096 bytes: `length` given bytes, and zeros
 * after them. Whether the program takes that many; otherwise nothing is written. */
static inline bool ebpf_pad(const ebpf_program *program, const uint8_t *context, size_t length, uint8_t *padded) {
    size_t whole = ebpf_program_context(program);
    if (length > whole) return false;
    for (size_t i = 0; i < length; i++) padded[i] = context[i];
    for (size_t i = length; i < whole; i++) padded[i] = 0;
    return true;
}

/* Runs a program as ebpf_machine_run does, on a context that may be shorter than was declared: zeros come after the given bytes, which the
 * program can't tell from zeros that were given. EBPF_CONTEXT: the context is longer than was declared. */
static inline ebpf_status ebpf_machine_run_padded(ebpf_machine *machine, const ebpf_program *program, const uint8_t *context,
                                                  size_t context_length, uint64_t limit, uint64_t *output, size_t output_length,
                                                  ebpf_report *report) {
    uint8_t padded[4096];
    bool fits = ebpf_pad(program, context, context_length, padded); /* otherwise the run is refused */
    return ebpf_machine_run(machine, program, fits ? padded : context, fits ? ebpf_program_context(program) : context_length, limit, output,
                            output_length, report);
}

/* Runs a program as ebpf_worker_run does, on a context that may be shorter, as for ebpf_machine_run_padded. */
static inline ebpf_status ebpf_worker_run_padded(ebpf_worker *worker, const ebpf_program *program, const uint8_t *context, size_t context_length,
                                                 uint64_t limit, uint64_t *output, size_t output_length, ebpf_report *report) {
    uint8_t padded[4096];
    bool fits = ebpf_pad(program, context, context_length, padded); /* otherwise the run is refused */
    return ebpf_worker_run(worker, program, fits ? padded : context, fits ? ebpf_program_context(program) : context_length, limit, output,
                           output_length, report);
}

#ifdef __cplusplus
}
#endif

#endif
