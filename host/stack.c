/* How deep each entry point goes into the stack (x86-64). host/stack.sh builds and runs this.
 *
 * Each call is made by a thread with a stack of its own. Right before it, all of that stack below the stack pointer is painted: every
 * byte holds one value. Right after it, the lowest byte that holds another value is looked for; the depth is how far it lies below
 * the stack pointer. That has the return address in it, and the few bytes of the small function here that hands the arguments over.
 * Two values are painted in turn and the greater depth counts, so that a byte which was written with the paint's own value is not
 * missed. Bytes that a function sets aside below the last one that it writes are not seen.
 */
#define _GNU_SOURCE
#include "saltcurtain.h"
#include <pthread.h>
#include <stdio.h>
#include <stdlib.h>
#include <sys/mman.h>

enum { STACK = 256 * 1024, LONGEST = 1 << 20, PIECE = 4096 };

/* One call: what is asked, where its stack lies, and what came of it. */
struct call {
    uint32_t (*made)(const struct call *);
    uint32_t variant;
    const uint8_t *input;
    size_t length;
    uint8_t *destination;
    uint8_t *stack, paint;
    uint32_t number;
    size_t depth;
};

static uint32_t one_shot(const struct call *c)
{
    return saltcurtain_digest(c->variant, 0, c->input, c->length, c->destination, SALTCURTAIN_TEXT_256);
}

static uint32_t in_pieces(const struct call *c)
{
    return saltcurtain_digest_pieces(c->variant, 0, PIECE, c->input, c->length, c->destination, SALTCURTAIN_TEXT_256);
}

/* The input is a text. */
static uint32_t rewritten(const struct call *c)
{
    return saltcurtain_rewrite(c->variant, c->input, c->length, c->destination, SALTCURTAIN_TEXT_256);
}

static uint32_t ratios(const struct call *c)
{
    uint32_t out[4];
    (void)c;
    return saltcurtain_ratios(1, 2, 3, out);
}

static uint32_t length_code(const struct call *c)
{
    uint32_t out[1];
    return saltcurtain_length_code((uint32_t)c->length, out);
}

/* Runs in the thread. Between the painting and the search nothing is called but what is measured. */
static void *run(void *given)
{
    struct call *c = given;
    volatile uint8_t *here, *at;
    __asm__ volatile("mov %%rsp, %0" : "=r"(here));
    for (at = c->stack; at < here; at++) {
        *at = c->paint;
    }
    c->number = c->made(c);
    for (at = c->stack; at < here && *at == c->paint;) {
        at++;
    }
    c->depth = (size_t)(here - at);
    return NULL;
}

static void must(int good, const char *what)
{
    if (!good) {
        fprintf(stderr, "stack: %s\n", what);
        exit(1);
    }
}

/* The greater depth of a call by two paints. */
static size_t depth(struct call c)
{
    static const uint8_t paints[2] = {0xA5, 0x5A};
    size_t greatest = 0;
    c.stack = mmap(NULL, STACK, PROT_READ | PROT_WRITE, MAP_PRIVATE | MAP_ANONYMOUS, -1, 0);
    must(c.stack != MAP_FAILED, "no memory");
    for (int i = 0; i < 2; i++) {
        pthread_attr_t how;
        pthread_t thread;
        c.paint = paints[i];
        must(pthread_attr_init(&how) == 0 && pthread_attr_setstack(&how, c.stack, STACK) == 0, "no stack for a thread");
        must(pthread_create(&thread, &how, run, &c) == 0 && pthread_join(thread, NULL) == 0, "no thread");
        pthread_attr_destroy(&how);
        must(c.number == 0, "a call was refused");
        greatest = c.depth > greatest ? c.depth : greatest;
    }
    munmap(c.stack, STACK);
    return greatest;
}

int main(void)
{
    static const uint32_t variants[3] = {48, 128, 256};
    static const size_t lengths[3] = {60, 4096, LONGEST}, sizes[3] = {SALTCURTAIN_TEXT_48, SALTCURTAIN_TEXT_128, SALTCURTAIN_TEXT_256};
    static uint8_t input[LONGEST], text[SALTCURTAIN_TEXT_256], destination[SALTCURTAIN_TEXT_256];
    /* Kind 2 of the stored list (README.md) with seed 1. */
    uint32_t x = 1;
    for (size_t i = 0; i < LONGEST; i++) {
        x = (uint32_t)(((uint64_t)x * 1103515245 + 12345) % 2147483648);
        input[i] = (uint8_t)(x / 65536 % 256);
    }

    printf("| Call | Variant | Bytes | Stack, bytes |\n|---|---|---|---|\n");
    for (int v = 0; v < 3; v++) {
        struct call c = {.variant = variants[v], .input = input, .destination = destination};
        for (int n = 0; n < 3; n++) {
            c.length = lengths[n];
            c.made = one_shot;
            printf("| digest | %u | %zu | %zu |\n", c.variant, c.length, depth(c));
            c.made = in_pieces;
            printf("| digest in pieces of %d | %u | %zu | %zu |\n", PIECE, c.variant, c.length, depth(c));
        }
        must(saltcurtain_digest(c.variant, 0, input, 4096, text, sizes[v]) == 0, "no text");
        c.made = rewritten, c.input = text, c.length = sizes[v];
        printf("| rewrite | %u | %zu | %zu |\n", c.variant, c.length, depth(c));
    }
    struct call c = {.made = ratios};
    printf("| ratios | | | %zu |\n", depth(c));
    c.made = length_code, c.length = LONGEST;
    printf("| length code | | | %zu |\n", depth(c));
    return 0;
}
