/* Answers whether nginx may serve a request: what its auth_request asks, a program in an object file decides.
 *
 *     gcc -O2 -o nginx-ebpf nginx-ebpf.c $(pkg-config --cflags --libs ebpf_host) -lpthread
 *     nginx-ebpf [-f FUNCTION] POLICY.o SOCKET     serves on a Unix socket until SIGTERM or SIGINT
 *     nginx-ebpf -t [-f FUNCTION] POLICY.o         only says whether the policy is accepted
 *
 * nginx sends the head of a request of HTTP with three fields: X-Address, X-Method and X-Zone, a number by which its configuration says what
 * the request is for. The program gets them as a `struct request`, and allows the request if it returns 1: the answer is then 204, and otherwise
 * 403. The field X-Verdict of the answer has the number.
 *
 * Eight threads wait for whatever connection has something to read. Each has a worker, so what a run leaves on a shelf, a run on any thread finds.
 * SIGHUP loads the policy again: requests go on meanwhile by the old one, and each thread takes up the new one before its next request. If the
 * new one is refused, a message says why, and the old one stays. A policy is replaced by mv, so that no half of a file is read.
 *
 * The status is 0 if it was ended by a signal or the policy is accepted, 1 if something failed, and 2 if the command line can't be read. */
#define _GNU_SOURCE
#include <arpa/inet.h>
#include <errno.h>
#include <pthread.h>
#include <signal.h>
#include <stdatomic.h>
#include <stdio.h>
#include <stdlib.h>
#include <string.h>
#include <strings.h>
#include <sys/epoll.h>
#include <sys/eventfd.h>
#include <sys/socket.h>
#include <sys/stat.h>
#include <sys/un.h>
#include <time.h>
#include <unistd.h>

#include <ebpf_host.h>

enum { THREADS = 8, PAGES = 64, HELD = 4, LIMIT = 4096, MOST_FILE = 1 << 20, MOST_HEAD = 4096, WAITING = 511 };

/* What the program judges: the bytes of an address of IPv6, which is ::ffff:a.b.c.d for one of IPv4; the time, in seconds since 1970; the zone;
 * and the method, by its place in `methods`, or 0. */
struct request {
    uint8_t address[16];
    uint32_t second;
    uint16_t zone;
    uint8_t method, unused;
};

static const char *const methods[] = {"", "GET", "HEAD", "POST", "PUT", "DELETE", "OPTIONS", "PATCH"};

/* A connection of nginx, and what it has sent of its next request. It goes from thread to thread, each of which finds what the last one wrote:
 * that one counts `turns` on, and the next one reads it. */
struct connection {
    atomic_uint turns;
    int socket;
    size_t length;
    char bytes[MOST_HEAD];
};

/* What the threads share. The policy is replaced under the lock, and its number counts on; a thread has a handle of its own, which it shares
 * with the policy anew, under the lock too, when it finds another number. */
static struct {
    const char *path, *function;
    pthread_mutex_t lock;
    ebpf_program policy;
    atomic_uint number;
    int events;
    struct connection listener; /* only its socket */
    atomic_ulong allowed, denied, failed;
} server = {.lock = PTHREAD_MUTEX_INITIALIZER, .function = ""};

/* What one thread uses. */
struct thread {
    pthread_t id;
    ebpf_worker worker;
    ebpf_program policy;
    unsigned number; /* that of its policy */
};

static void say(const char *what, const char *words) {
    fprintf(stderr, "nginx-ebpf: %s: %s\n", what, words);
}

static bool fail(const char *what, const char *why) {
    say(what, why);
    return false;
}

/* Reads the policy's file into a room. Whether it could. */
static bool read_policy(uint8_t *bytes, size_t *length) {
    FILE *file = fopen(server.path, "rb");
    if (!file) return fail(server.path, strerror(errno));
    *length = fread(bytes, 1, MOST_FILE + 1, file);
    bool is_read = !ferror(file);
    fclose(file);
    if (!is_read) return fail(server.path, "it can't be read");
    return *length <= MOST_FILE || fail(server.path, "it has more than a mebibyte");
}

/* Loads the policy, with its loops unrolled. Whether it is accepted; otherwise a message says why. */
static bool load(ebpf_program *policy) {
    static uint8_t bytes[MOST_FILE + 1];
    char text[1024] = "";
    size_t length;
    ebpf_refusal refusal;
    if (!read_policy(bytes, &length)) return false;
    ebpf_status status = ebpf_program_load_elf_unrolled(policy, bytes, length, server.function, strlen(server.function), sizeof(struct request),
                                                        HELD, text, sizeof text - 1, &refusal);
    if (status == EBPF_DONE) return true;
    if (status != EBPF_REFUSED) return fail(server.path, ebpf_status_text(status));
    fprintf(stderr, "nginx-ebpf: %s is refused, %.4s at slot %u\n%s", server.path, refusal.code, refusal.slot, text);
    return false;
}

/* Puts a new block on the shelf of blocks, if none is there: a policy may keep a table in it. A run that has the block meanwhile puts it back in
 * place of the new one. */
static void put_block(ebpf_worker *worker) {
    uint8_t bytes[512];
    bool found, replaced;
    ebpf_status status = ebpf_worker_take(worker, EBPF_BLOCK, bytes, sizeof bytes, &found);
    if (status == EBPF_DONE) status = ebpf_worker_put(worker, EBPF_BLOCK, bytes, found ? sizeof bytes : 0, &replaced);
    if (status != EBPF_DONE) say("the shelf of blocks", ebpf_status_text(status));
}

/* Loads the policy in place of the one that is there, if it is accepted. */
static void reload(ebpf_worker *worker) {
    ebpf_program policy = {0};
    if (!load(&policy)) {
        say(server.path, "the policy before it stays");
        return;
    }
    pthread_mutex_lock(&server.lock);
    ebpf_status status = ebpf_program_share(&server.policy, &policy);
    if (status == EBPF_DONE) atomic_fetch_add(&server.number, 1);
    pthread_mutex_unlock(&server.lock);
    ebpf_program_free(&policy);
    put_block(worker);
    say(server.path, status == EBPF_DONE ? "loaded again" : ebpf_status_text(status));
}

/* Has a thread take up the policy, if it is a new one. Without memory it keeps the one it has, and tries again before its next request. */
static void take_up(struct thread *thread) {
    if (atomic_load_explicit(&server.number, memory_order_relaxed) == thread->number) return;
    pthread_mutex_lock(&server.lock);
    if (ebpf_program_share(&thread->policy, &server.policy) == EBPF_DONE) thread->number = server.number;
    pthread_mutex_unlock(&server.lock);
}

/* The value of a field in a head, up to the end of its line, as a text; an empty one if there is none, or if it is too long. */
static void field(const char *head, const char *name, char *value, size_t room) {
    size_t length = strlen(name);
    *value = '\0';
    for (const char *line = strchr(head, '\n'); line; line = strchr(line, '\n')) {
        if (strncasecmp(++line, name, length)) continue;
        const char *begin = line + length + strspn(line + length, " \t");
        size_t bytes = strcspn(begin, "\r\n");
        if (bytes < room) memcpy(value, begin, bytes), value[bytes] = '\0';
        return;
    }
}

/* Reads what is asked by a head. Whether it has all three fields. */
static bool read_request(const char *head, struct request *request) {
    char address[64], method[16], zone[8], mapped[80], *end;
    field(head, "X-Address:", address, sizeof address);
    field(head, "X-Method:", method, sizeof method);
    field(head, "X-Zone:", zone, sizeof zone);
    snprintf(mapped, sizeof mapped, "%s%s", strchr(address, ':') ? "" : "::ffff:", address);
    unsigned long number = strtoul(zone, &end, 10);
    if (inet_pton(AF_INET6, mapped, request->address) != 1 || !*method || !*zone || *end || number > UINT16_MAX) return false;
    for (uint8_t i = 1; i < sizeof methods / sizeof *methods; i++) {
        if (!strcmp(method, methods[i])) request->method = i;
    }
    request->zone = (uint16_t)number;
    request->second = (uint32_t)time(NULL);
    return true;
}

/* Writes an answer. nginx sends a request when it has read the last answer, so there is room for it. Whether it is written. */
static bool answer(int socket, const char *status, uint64_t verdict) {
    char bytes[128];
    int length = snprintf(bytes, sizeof bytes, "HTTP/1.1 %s\r\nX-Verdict: %llu\r\n\r\n", status, (unsigned long long)verdict);
    return send(socket, bytes, (size_t)length, MSG_NOSIGNAL) == length;
}

/* Judges a request by the policy, and answers it. Whether the connection goes on. */
static bool judge(struct thread *thread, int socket, const char *head) {
    struct request request = {0};
    ebpf_report report;
    if (!read_request(head, &request)) {
        atomic_fetch_add(&server.failed, 1);
        say("a request", "it lacks X-Address, X-Method or X-Zone");
        answer(socket, "400 Bad Request\r\nConnection: close\r\nContent-Length: 0", 0);
        return false;
    }
    take_up(thread);
    ebpf_status status = ebpf_worker_run(&thread->worker, &thread->policy, (const uint8_t *)&request, sizeof request, LIMIT, NULL, 0, &report);
    if (status != EBPF_DONE) {
        atomic_fetch_add(&server.failed, 1);
        say("a run", ebpf_status_text(status));
        return answer(socket, "500 Internal Server Error\r\nContent-Length: 0", 0);
    }
    atomic_fetch_add(report.exit == 1 ? &server.allowed : &server.denied, 1);
    return answer(socket, report.exit == 1 ? "204 No Content" : "403 Forbidden\r\nContent-Length: 0", report.exit);
}

/* Answers each whole request that a connection has sent, and keeps what comes after it. Whether the connection goes on. */
static bool answer_all(struct thread *thread, struct connection *connection) {
    char *end;
    connection->bytes[connection->length] = '\0';
    while ((end = strstr(connection->bytes, "\r\n\r\n"))) {
        *end = '\0';
        if (!judge(thread, connection->socket, connection->bytes)) return false;
        size_t taken = (size_t)(end + 4 - connection->bytes);
        connection->length -= taken;
        memmove(connection->bytes, end + 4, connection->length + 1);
    }
    return connection->length < MOST_HEAD - 1;
}

/* Reads what a connection has sent, and answers. Whether the connection goes on. */
static bool serve(struct thread *thread, struct connection *connection) {
    ssize_t length = recv(connection->socket, connection->bytes + connection->length, MOST_HEAD - 1 - connection->length, MSG_DONTWAIT);
    if (length < 0) return errno == EAGAIN || errno == EINTR;
    connection->length += (size_t)length;
    return length > 0 && !memchr(connection->bytes, '\0', connection->length) && answer_all(thread, connection);
}

/* Has the next event of a socket go to one thread, whichever is free. */
static bool wait_for(struct connection *connection, int operation) {
    struct epoll_event event = {.events = EPOLLIN | EPOLLONESHOT, .data.ptr = connection};
    atomic_fetch_add_explicit(&connection->turns, 1, memory_order_release);
    return !epoll_ctl(server.events, operation, connection->socket, &event);
}

/* Takes a new connection. Where that isn't possible, nginx is answered nothing, and refuses the request. */
static void take_connection(void) {
    int socket = accept4(server.listener.socket, NULL, NULL, SOCK_NONBLOCK | SOCK_CLOEXEC);
    if (socket < 0 && errno != EAGAIN) say("a connection", strerror(errno)), usleep(10000); /* as if there are too many */
    struct connection *connection = socket < 0 ? NULL : calloc(1, sizeof *connection);
    if (connection) connection->socket = socket;
    if (socket >= 0 && (!connection || !wait_for(connection, EPOLL_CTL_ADD))) {
        say("a connection", "out of memory");
        close(socket);
        free(connection);
    }
    wait_for(&server.listener, EPOLL_CTL_MOD);
}

/* A thread: takes the next event, until it is that of the end, which has no connection. */
static void *work(void *of) {
    struct thread *thread = of;
    struct epoll_event event;
    while (epoll_wait(server.events, &event, 1, -1) == 1 || errno == EINTR) {
        struct connection *connection = event.data.ptr;
        if (!connection) break;
        atomic_load_explicit(&connection->turns, memory_order_acquire);
        if (connection == &server.listener) take_connection();
        else if (serve(thread, connection)) wait_for(connection, EPOLL_CTL_MOD);
        else close(connection->socket), free(connection);
    }
    return NULL;
}

/* Gives a socket a name in the file system, in place of one that no process listens on any more. Whether it could; errno says why not. */
static bool name_socket(int listener, const struct sockaddr_un *name) {
    const struct sockaddr *address = (const struct sockaddr *)name;
    if (!bind(listener, address, sizeof *name)) return true;
    if (errno != EADDRINUSE) return false;
    bool is_stale = connect(listener, address, sizeof *name) && errno == ECONNREFUSED;
    errno = EADDRINUSE;
    return is_stale && !unlink(name->sun_path) && !bind(listener, address, sizeof *name);
}

/* Listens on a socket of the file system, which the user and the group of this process may open. Whether it could. */
static bool listen_on(const char *path) {
    struct sockaddr_un name = {.sun_family = AF_UNIX};
    if (strlen(path) >= sizeof name.sun_path) return fail(path, "the path is too long for a socket");
    memcpy(name.sun_path, path, strlen(path));
    mode_t mask = umask(0117);
    server.listener.socket = socket(AF_UNIX, SOCK_STREAM | SOCK_NONBLOCK | SOCK_CLOEXEC, 0);
    bool is_named = name_socket(server.listener.socket, &name);
    umask(mask);
    return (is_named && !listen(server.listener.socket, WAITING)) || fail(path, strerror(errno));
}

/* Handles signals until one ends the server. */
static void wait_for_signals(const sigset_t *signals, ebpf_worker *worker) {
    int signal;
    while (!sigwait(signals, &signal) && signal == SIGHUP) reload(worker);
}

/* Starts the threads, and ends them after a signal: each first answers what it is at. Whether all could be started. */
static bool run_threads(struct thread *threads, const sigset_t *signals, ebpf_worker *own) {
    int end = eventfd(1, EFD_CLOEXEC), started = 0;
    struct epoll_event ended = {.events = EPOLLIN, .data.ptr = NULL};
    while (started < THREADS && !pthread_create(&threads[started].id, NULL, work, &threads[started])) started++;
    if (started == THREADS) say(server.path, "ready"), wait_for_signals(signals, own);
    else say("a thread", "it can't be started");
    epoll_ctl(server.events, EPOLL_CTL_ADD, end, &ended);
    for (int i = 0; i < started; i++) pthread_join(threads[i].id, NULL);
    close(end);
    return started == THREADS;
}

/* Opens a worker for each thread, with a handle of the policy, and one for this thread. */
static ebpf_status open_workers(ebpf_shared *shared, struct thread *threads, ebpf_worker *own) {
    ebpf_status status = ebpf_shared_new(shared, PAGES, THREADS + 1);
    if (status == EBPF_DONE) status = ebpf_worker_open(own, shared);
    for (int i = 0; i < THREADS && status == EBPF_DONE; i++) {
        status = ebpf_worker_open(&threads[i].worker, shared);
        if (status == EBPF_DONE) status = ebpf_program_share(&threads[i].policy, &server.policy);
    }
    return status;
}

/* Serves on a socket until a signal ends it. Whether all went well. */
static bool serve_on(const char *path, const sigset_t *signals) {
    static struct thread threads[THREADS];
    ebpf_shared shared = {0};
    ebpf_worker own = {0};
    ebpf_status status = open_workers(&shared, threads, &own);
    if (status != EBPF_DONE) return fail("the workers", ebpf_status_text(status));
    put_block(&own);
    server.events = epoll_create1(EPOLL_CLOEXEC);
    if (!listen_on(path) || !wait_for(&server.listener, EPOLL_CTL_ADD)) return false;
    bool is_well = run_threads(threads, signals, &own);
    unlink(path);
    for (int i = 0; i < THREADS; i++) ebpf_worker_close(&threads[i].worker), ebpf_program_free(&threads[i].policy);
    ebpf_worker_close(&own);
    ebpf_shared_free(&shared);
    close(server.listener.socket), close(server.events);
    fprintf(stderr, "nginx-ebpf: allowed %lu, denied %lu, failed %lu\n", server.allowed, server.denied, server.failed);
    return is_well;
}

int main(int count, char **of) {
    int option;
    bool is_test = false, is_read = true;
    sigset_t signals;
    while ((option = getopt(count, of, "tf:")) != -1) {
        if (option == 't') is_test = true;
        else if (option == 'f') server.function = optarg;
        else is_read = false;
    }
    if (!is_read || count - optind != (is_test ? 1 : 2)) {
        fprintf(stderr, "usage: nginx-ebpf [-f FUNCTION] POLICY.o SOCKET, or nginx-ebpf -t [-f FUNCTION] POLICY.o\n");
        return 2;
    }
    server.path = of[optind];
    sigemptyset(&signals);
    sigaddset(&signals, SIGHUP), sigaddset(&signals, SIGINT), sigaddset(&signals, SIGTERM);
    pthread_sigmask(SIG_BLOCK, &signals, NULL);
    bool is_well = load(&server.policy);
    if (is_well && is_test) say(server.path, "accepted");
    if (is_well && !is_test) is_well = serve_on(of[optind + 1], &signals);
    ebpf_program_free(&server.policy);
    return is_well ? 0 : 1;
}
