/* The policy of policy.c as a function of SQL that is compiled with the host, native_allow(BLOB): what ebpf(..) is compared with, and timed beside. */
#include <sqlite3ext.h>
#include <stddef.h>

#include "policy.c"

SQLITE_EXTENSION_INIT1

static void native_allow(sqlite3_context *context, int count, sqlite3_value **values) {
    (void)count;
    const void *bytes = sqlite3_value_blob(values[0]);
    if (sqlite3_value_bytes(values[0]) == sizeof(struct request)) sqlite3_result_int64(context, (sqlite3_int64)allow(bytes));
}

int sqlite3_native_init(sqlite3 *connection, char **text, const sqlite3_api_routines *functions) {
    SQLITE_EXTENSION_INIT2(functions)
    (void)text;
    return sqlite3_create_function(connection, "native_allow", 1, SQLITE_UTF8 | SQLITE_DETERMINISTIC, NULL, native_allow, NULL, NULL);
}
