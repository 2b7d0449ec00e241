// Runs a program that is compiled for the machine itself: the first word is the name of its function. Each line of standard input is a
// run: its context as hex, or `-` for none, and after a blank `null` if each call of `new` is answered null. Of each it writes the
// numbers that the run emits, its result, and the most objects that it held, as `one` does. The shelves are empty before each run; with
// a second word, they have what the runs before left there.
#include <dlfcn.h>
#include <stdio.h>
#include <stdlib.h>
#include <string.h>

#include "helpers.h"
#undef free

// the kinds of object by their numbers
static const struct { size_t size; int fill; } kinds[] = { { 16, 0x00 }, { 64, 0xff }, { 512, 0x5a } };

static void *shelves[3];
static int is_granted, held, peak;

static void take(void)
{
    if (++held > peak)
        peak = held;
}

void *new(number kind)
{
    if (!is_granted)
        return NULL;
    void *object = malloc(kinds[kind].size);
    if (!object)
        abort();
    take();
    return memset(object, kinds[kind].fill, kinds[kind].size);
}

number give_back(void *object)
{
    held--;
    free(object);
    return 0;
}

number emit(number n)
{
    printf("emit %lu\n", n);
    return 0;
}

void *swap(number shelf, void *given)
{
    void *was_there = shelves[shelf];
    shelves[shelf] = given;
    held -= given != NULL;
    if (was_there)
        take();
    return was_there;
}

int main(int count, char **words)
{
    static _Alignas(number) byte context[4096];
    static char line[2 * sizeof context + 8];
    number (*program)(const byte *) = dlsym(dlopen(NULL, RTLD_NOW), words[1]);
    if (!program)
        return 2;
    while (fgets(line, sizeof line, stdin)) {
        for (size_t at = 0; sscanf(line + 2 * at, "%2hhx", &context[at]) == 1; at++)
            ;
        is_granted = !strstr(line, "null");
        held = peak = 0;
        if (count < 3)
            memset(shelves, 0, sizeof shelves);
        number result = program(context);
        printf("exit %lu peak %d\n", result, peak);
    }
    return 0;
}
