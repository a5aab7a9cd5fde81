/* Every call of the header, made with parts that hold something, and again with parts of length 0 behind NULL and behind
 * another pointer. What follows this file is written by the test: the parts, and for each call a function that makes it.
 * Prints a line a call: its name, and how many bytes of stack it took. */
#include "compose.h"
#include <pthread.h>
#include <stdio.h>
#include <stdlib.h>
#include <string.h>

/* A part of a call, and what stands in place of it where it is left out. */
struct parts {
    int without; /* the index of the part that is left out; ALL of them, or NONE */
    void *nothing;
};

enum { NONE = -1, ALL = -2 };

#define LEFT_OUT(parts, at) ((parts)->without == (at) || (parts)->without == ALL)
#define POINTER(parts, at, type, part) (LEFT_OUT(parts, at) ? (type *)(parts)->nothing : (part))
#define LENGTH(parts, at, part) (LEFT_OUT(parts, at) ? 0 : sizeof(part) / sizeof((part)[0]))

struct call {
    const char *name;
    int slices;
    uint64_t (*make)(const struct parts *);
};

/* A call on a stack of its own, of which every byte had a known value. */
enum { STACK = 4 << 20, PAINT = 0xa5 };

struct run {
    const struct call *call;
    uint64_t answer;
};

static void *run(void *argument)
{
    struct run *run = (struct run *)argument;
    const struct parts whole = {NONE, NULL};
    if (run->call)
        run->answer = run->call->make(&whole);
    return NULL;
}

/* How many bytes of the stack were written, with what a thread itself needs. */
static size_t stack_of(struct run *what)
{
    static unsigned char *stack;
    pthread_attr_t attributes;
    pthread_t thread;
    size_t kept = 0;
    if (!stack && posix_memalign((void **)&stack, 4096, STACK))
        abort();
    memset(stack, PAINT, STACK);
    if (pthread_attr_init(&attributes) || pthread_attr_setstack(&attributes, stack, STACK) ||
        pthread_create(&thread, &attributes, run, what) || pthread_join(thread, NULL))
        abort();
    while (kept < STACK && stack[kept] == PAINT)
        kept++;
    return STACK - kept;
}

/* The call without one part, or without any: what it answers must not depend on the pointer. */
static int same_without(const struct call *call, int without)
{
    static uint64_t something;
    const struct parts null = {without, NULL}, other = {without, &something};
    uint64_t first = call->make(&null), second = call->make(&other);
    if (first == second)
        return 1;
    printf("%s without part %d: %d behind NULL, %d behind another pointer\n", call->name, without,
           COMPOSE_REFUSAL(first), COMPOSE_REFUSAL(second));
    return 0;
}

static int try_all(const struct call *calls, size_t count)
{
    struct run nothing = {NULL, 0};
    size_t thread = stack_of(&nothing);
    for (size_t at = 0; at < count; at++) {
        struct run whole = {&calls[at], 0};
        size_t stack = stack_of(&whole) - thread;
        if (COMPOSE_IS_REFUSAL(whole.answer)) {
            printf("%s: refused %d, item %d %lu\n", calls[at].name, COMPOSE_REFUSAL(whole.answer),
                   COMPOSE_SORT(whole.answer), (unsigned long)COMPOSE_INDEX(whole.answer));
            return 1;
        }
        for (int part = ALL; part < calls[at].slices; part++)
            if (part != NONE && !same_without(&calls[at], part))
                return 1;
        printf("%s %lu\n", calls[at].name, (unsigned long)stack);
    }
    return 0;
}

/* In what follows, a call of numbers alone has no part to leave out. */
#pragma GCC diagnostic ignored "-Wunused-parameter"
