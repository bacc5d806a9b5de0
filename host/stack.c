/*
 * How much stack a call uses: each function is called in a thread whose stack
 * was painted before, and what is no longer painted was used. A thread that
 * calls nothing uses some too, which does not count. The header says what is
 * to be expected at most; more fails.
 *
 *     stack
 */
#define _POSIX_C_SOURCE 200809L

#include "ottersprawl.h"
#include "sides.h"
#include "tables.h"

#include <pthread.h>
#include <stdio.h>
#include <stdlib.h>
#include <string.h>

enum { STACK = 1 << 18, PAINT = 0xa5, SLOTS = 4096 };

/* In descending id, so that they are sorted. The first is accepted under every
 * policy, the second refused by the last check of rows and the third by that of
 * the periods. */
enum { TABLES = 3, ROWS = 4 };
static const struct ref_row tables[TABLES][ROWS] = {
    { { 200, 0, 1, 4, 4, 0, 0, 1 }, { 150, 1, 1, 16, 16, 1, 1, 2 },
      { 90, 3, 3, 40, 40, 2, 1, 3 }, { 7, 0, 20, 1000, 1000, 3, 2, 4 } },
    { { 200, 0, 1, 4, 4, 0, 0, 1 }, { 150, 1, 1, 16, 16, 1, 1, 2 },
      { 90, 3, 3, 40, 40, 2, 3, 3 }, { 7, 0, 20, 1000, 1000, 3, 2, 4 } },
    { { 200, 0, 1, 4, 32, 0, 0, 1 }, { 150, 1, 1, 16, 33, 1, 1, 2 },
      { 90, 3, 3, 40, 40, 2, 1, 3 }, { 7, 0, 20, 1000, 3125, 3, 2, 4 } },
};

struct call {
    enum function function;
    int is_made;
    struct arguments arguments;
};

static void *run(void *on)
{
    const struct call *call = on;
    if (call->is_made)
        reply_of(&otter_side, call->function, &call->arguments);
    return NULL;
}

static void check(int error, const char *what)
{
    if (error != 0) {
        fprintf(stderr, "stack: %s: %s\n", what, strerror(error));
        exit(EXIT_FAILURE);
    }
}

/* The stack grows down: what is left of the paint is at its start. */
static size_t used_by(struct call *call)
{
    static uint8_t *stack;
    pthread_attr_t attributes;
    pthread_t thread;
    size_t painted = 0;
    if (stack == NULL)
        check(posix_memalign((void **)&stack, 65536, STACK), "no memory");
    memset(stack, PAINT, STACK);
    check(pthread_attr_init(&attributes), "pthread_attr_init");
    check(pthread_attr_setstack(&attributes, stack, STACK), "pthread_attr_setstack");
    check(pthread_create(&thread, &attributes, run, call), "pthread_create");
    check(pthread_join(thread, NULL), "pthread_join");
    pthread_attr_destroy(&attributes);
    while (painted < STACK && stack[painted] == PAINT)
        painted++;
    return STACK - painted;
}

/* What a call of the function uses at most, over all tables. */
static size_t most_used(enum function function)
{
    static uint8_t lent[2 * SLOTS];
    static const uint32_t entries[] = { 1, 0, 2 };
    size_t most = 0;
    for (size_t i = 0; i < TABLES; i++) {
        struct text text;
        write_text(&text, tables[i], ROWS, plain_writing);
        struct call call = { function, 0,
                             { .policy = REF_ABSOLUTE_DEADLINE, .allowance = 1000000,
                               .text = text.bytes, .text_len = text.length,
                               .requests = entries, .requests_len = 3,
                               .loadings = entries, .loadings_len = 3,
                               .lent = lent, .lent_len = sizeof lent } };
        size_t none = used_by(&call);
        call.is_made = 1;
        size_t used = used_by(&call) - none;
        if (used > most)
            most = used;
    }
    return most;
}

int main(void)
{
    int failed = 0;
    for (int function = 0; function < FUNCTIONS; function++) {
        size_t most = most_used((enum function)function);
        /* Rows alone are more than a kilobyte: less was not measured. */
        int holds = most > 1024 && most <= OTTER_STACK_MOST;
        printf("%s%s: %zu bytes of stack\n", holds ? "" : "failed: ", function_names[function], most);
        failed += !holds;
    }
    printf("%d passed, %d failed\n", FUNCTIONS - failed, failed);
    return failed != 0;
}
