// Whether a request is allowed: 1 or 0. The context is the eight bytes of a request.
//
//     clang -O2 -g -fdebug-prefix-map="$PWD"=. -target bpfel -mcpu=v3 -c policy.c
typedef unsigned char byte;
typedef unsigned int word;

enum role { GUEST, CLERK, MANAGER };
enum action { READ, WRITE, PAY };
enum { OPENS = 8, CLOSES = 18 }; // hours of the day

struct request {
    byte role, action, hour, unused;
    word cents;
};

// what each role may pay
static const word most_cents[3] = {[CLERK] = 10000, [MANAGER] = 1000000};

unsigned long allow(const struct request *request)
{
    if (request->role > MANAGER)
        return 0;
    if (request->action == READ)
        return 1;
    if (request->action == WRITE)
        return request->role != GUEST;
    if (request->action != PAY || request->hour < OPENS || request->hour >= CLOSES)
        return 0;
    return request->cents <= most_cents[request->role];
}
