/* A function of SQL that asks a program: ebpf(FILE, FUNCTION, BLOB) loads a function of an object file, runs it on the bytes of the blob, and is
 * the number that it returns.
 *
 *     gcc -O2 -fPIC -shared -o ebpf.so ebpf.c $(pkg-config --cflags --libs ebpf_host)
 *     sqlite3 requests.db -cmd '.load ./ebpf' "SELECT * FROM requests WHERE ebpf('policy.o', 'allow', request)"
 *
 * The context is the whole blob, so the function is loaded for each length of blob that a statement meets, once. With the length as a fourth
 * argument a blob of another length is an error: that is safer, since a function with tables, of a blob that is too short, reads its tables there.
 *
 * The function of SQL is deterministic: each run finds the shelves empty, and one that is refused an object for want of memory is an error. It
 * reads a file, so it may not be called by a view or a trigger, which may come with a database.
 *
 * A machine is the connection's, of which one thread uses one function at a time. What is loaded is the statement's, as long as FILE is the same
 * for all its rows. */
#include <sqlite3ext.h>
#include <stdio.h>
#include <string.h>

#include <ebpf_host.h>

SQLITE_EXTENSION_INIT1

enum { MOST_CONTEXT = 4096, MOST_HELD = 64, MOST_FILE = 1 << 20, LIMIT = 4096, PAGES = 64, KINDS = 3 };

/* What a statement has loaded: a file, and the programs of one of its functions, each by the bytes of its context. */
struct loaded {
    uint8_t *file;
    size_t length;
    char *function;
    ebpf_program programs[MOST_CONTEXT + 1];
};

static void forget_programs(struct loaded *loaded) {
    for (size_t i = 0; i <= MOST_CONTEXT; i++) ebpf_program_free(&loaded->programs[i]);
    sqlite3_free(loaded->function);
    loaded->function = NULL;
}

static void release(void *pointer) {
    struct loaded *loaded = pointer;
    forget_programs(loaded);
    sqlite3_free(loaded->file);
    sqlite3_free(loaded);
}

/* Fails a statement with a text that sqlite3_mprintf made, or for want of memory if that is null. */
static void fail(sqlite3_context *context, char *text) {
    if (text) sqlite3_result_error(context, text, -1);
    else sqlite3_result_error_nomem(context);
    sqlite3_free(text);
}

/* Reads a file. Whether it could; otherwise the statement fails. */
static bool read_file(sqlite3_context *context, struct loaded *loaded, const char *path) {
    loaded->file = sqlite3_malloc(MOST_FILE + 1);
    if (!loaded->file) return fail(context, NULL), false;
    FILE *file = fopen(path, "rb");
    if (file) loaded->length = fread(loaded->file, 1, MOST_FILE + 1, file);
    bool is_read = file && !ferror(file) && loaded->length <= MOST_FILE;
    if (file) fclose(file);
    uint8_t *less = is_read ? sqlite3_realloc(loaded->file, (int)loaded->length + 1) : NULL;
    if (less) loaded->file = less;
    if (!is_read) fail(context, sqlite3_mprintf("ebpf: %s can't be read, or has more than %d bytes", path, MOST_FILE));
    return is_read;
}

/* What a statement loads, with its file. Null if the statement fails. */
static struct loaded *open_file(sqlite3_context *context, const char *path) {
    struct loaded *loaded = sqlite3_malloc(sizeof *loaded);
    if (!loaded) return fail(context, NULL), NULL;
    memset(loaded, 0, sizeof *loaded);
    if (read_file(context, loaded, path)) return loaded;
    release(loaded);
    return NULL;
}

/* Fails a statement whose function is refused, with the code, the sentence and the line of C, and without the last end of line. */
static void refuse(sqlite3_context *context, const char *function, const ebpf_refusal *refusal, const char *text) {
    size_t length = strlen(text);
    if (length && text[length - 1] == '\n') length--;
    const char *code = refusal->code;
    fail(context, sqlite3_mprintf("ebpf: %s is refused, %.4s at slot %u\n%.*s", function, code, refusal->slot, (int)length, text));
}

/* The function for contexts of that length. Null if the statement fails. */
static const ebpf_program *load(sqlite3_context *context, struct loaded *loaded, const char *function, size_t length) {
    if (loaded->function && strcmp(loaded->function, function)) forget_programs(loaded);
    if (!loaded->function) loaded->function = sqlite3_mprintf("%s", function);
    if (!loaded->function) return fail(context, NULL), NULL;
    if (length > MOST_CONTEXT) return fail(context, sqlite3_mprintf("ebpf: a blob has %d bytes, more than %d", (int)length, MOST_CONTEXT)), NULL;
    ebpf_program *program = &loaded->programs[length];
    if (program->word) return program;
    char text[1024] = "";
    ebpf_refusal refusal;
    ebpf_status status = ebpf_program_load_elf_unrolled(program, loaded->file, loaded->length, function, strlen(function), (uint32_t)length,
                                                        MOST_HELD, text, sizeof text - 1, &refusal);
    if (status == EBPF_REFUSED) return refuse(context, function, &refusal, text), NULL;
    if (status != EBPF_DONE) return fail(context, sqlite3_mprintf("ebpf: %s", ebpf_status_text(status))), NULL;
    return program;
}

/* Runs a program on the bytes of a blob, and empties the shelves after one that used them, so that no row depends on another. */
static void run(sqlite3_context *context, const ebpf_program *program, const uint8_t *bytes, size_t length) {
    ebpf_machine *machine = sqlite3_user_data(context);
    ebpf_report report;
    bool found;
    ebpf_status status = ebpf_machine_run(machine, program, bytes, length, LIMIT, NULL, 0, &report);
    if (status != EBPF_DONE) {
        fail(context, sqlite3_mprintf("ebpf: %s", ebpf_status_text(status)));
        return;
    }
    for (uint32_t kind = 0; report.fetched + report.missed && kind < KINDS; kind++) ebpf_machine_take(machine, kind, NULL, 0, &found);
    if (report.refused) fail(context, NULL);
    else sqlite3_result_int64(context, (sqlite3_int64)report.exit);
}

/* The function for a blob, and its run. What is loaded is as long as the statement, if it is given for the same file again. */
static void ask(sqlite3_context *context, const char *path, const char *function, const uint8_t *bytes, size_t length) {
    struct loaded *kept = sqlite3_get_auxdata(context, 0), *loaded = kept ? kept : open_file(context, path);
    if (!loaded) return;
    const ebpf_program *program = load(context, loaded, function, length);
    if (program) run(context, program, bytes, length);
    if (!kept) sqlite3_set_auxdata(context, 0, loaded, release); /* after its last use here: it may be released at once */
}

/* The function of SQL. If the blob is null, so is what it returns. */
static void ebpf(sqlite3_context *context, int count, sqlite3_value **values) {
    const char *path = (const char *)sqlite3_value_text(values[0]), *function = (const char *)sqlite3_value_text(values[1]);
    if (sqlite3_value_type(values[2]) == SQLITE_NULL) return;
    const uint8_t *bytes = sqlite3_value_blob(values[2]);
    int length = sqlite3_value_bytes(values[2]);
    if (!path || !function) fail(context, sqlite3_mprintf("ebpf: a file and a function have names"));
    else if (count == 4 && sqlite3_value_int64(values[3]) != length) fail(context, sqlite3_mprintf("ebpf: a blob has %d bytes", length));
    else ask(context, path, function, bytes, (size_t)length);
}

static void free_machine(void *machine) {
    ebpf_machine_free(machine);
    sqlite3_free(machine);
}

/* Adds the function of that many arguments, with a machine of its own. */
static int add(sqlite3 *connection, int count) {
    ebpf_machine *machine = sqlite3_malloc(sizeof *machine);
    if (!machine) return SQLITE_NOMEM;
    machine->word = NULL;
    if (ebpf_machine_new(machine, PAGES)) return free_machine(machine), SQLITE_NOMEM;
    int flags = SQLITE_UTF8 | SQLITE_DETERMINISTIC | SQLITE_DIRECTONLY;
    return sqlite3_create_function_v2(connection, "ebpf", count, flags, machine, ebpf, NULL, NULL, free_machine);
}

/* What `.load` calls, by the name of the file. */
int sqlite3_ebpf_init(sqlite3 *connection, char **text, const sqlite3_api_routines *functions) {
    SQLITE_EXTENSION_INIT2(functions)
    (void)text;
    int status = add(connection, 3);
    return status ? status : add(connection, 4);
}
