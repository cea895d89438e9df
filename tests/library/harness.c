/* Calls the library on the cases of standard input and prints what each call leaves; started by tests/library.py.
 *
 * A case: the function's number, a byte, then for each buffer that it is lent the number of bytes, four bytes, and these bytes; all numbers
 * as this machine stores them. A line: the answer, *value, and each buffer after the call in hexadecimal, - where it has no bytes. A line
 * that begins with 'error' stands before the line of its call. It names memory that the call may not change and did: next to a buffer, in an
 * input, or anywhere in a refused call.
 *
 * Each call runs on a thread with just the stack that the header says a call needs. The program ends where a call touches what lies below.
 *
 * Compiled with -DMEMCHECK and run under valgrind, a read next to a buffer is an error too.
 */
#define _GNU_SOURCE
#include <inttypes.h>
#include <pthread.h>
#include <stdio.h>
#include <stdlib.h>
#include <string.h>
#include <sys/mman.h>

#include "net_runner.h"

#ifdef MEMCHECK
#include <valgrind/memcheck.h>
#endif

#define GUARD 64
#define BELOW_STACK (16 * NET_STACK_BYTES)
#define MOST_BUFFERS 6

enum use { INPUT, WRITTEN };

struct buffer {
    const char *name;
    size_t width;
    enum use use;
};

struct function {
    const char *name;
    struct buffer lent[MOST_BUFFERS];
};

#define CARD {"card", 1, INPUT}
#define STATE {"markings", 4, WRITTEN}, {"transfers", 2, WRITTEN}, {"degrees", 2, WRITTEN}

enum { CHECK, FLATTEN, WRITE, FRESH, FLAT_ROW, SUBNET_ROW, FUNCTIONS };
static const struct function functions[FUNCTIONS] = {
    {"net_check", {CARD, {"counts", sizeof(size_t), WRITTEN}}},
    {"net_flatten", {CARD, {"out", 1, WRITTEN}}},
    {"net_write",
     {{"header", 2, INPUT}, {"subnets", 2, INPUT}, {"places", 2, INPUT}, {"transitions", 2, INPUT}, {"arcs", 2, INPUT}, {"out", 1, WRITTEN}}},
    {"net_fresh", {CARD, STATE}},
    {"net_flat_row", {CARD, STATE, {"row", 2, INPUT}}},
    {"net_subnet_row", {CARD, STATE, {"order", 2, INPUT}, {"row", 2, INPUT}}},
};

/* A buffer's bytes between guards, and a copy of all of it from before the call. */
struct block {
    uint8_t *all, *copy, *bytes;
    size_t front, size;
};

static void *allocated(size_t size)
{
    void *memory = malloc(size);
    if (memory == NULL) {
        fputs("harness: no memory\n", stderr);
        exit(2);
    }
    return memory;
}

static void take(void *into, size_t size)
{
    if (fread(into, 1, size, stdin) != size) {
        fputs("harness: a case is cut short\n", stderr);
        exit(2);
    }
}

/* The bytes start at a multiple of the width and of no larger power of two, so that a call gets no better alignment than it may ask for. The
 * guards differ from call to call, so that an answer which depends on them differs too. */
static struct block block(size_t size, size_t width, unsigned turn)
{
    struct block b = {.front = GUARD + width, .size = size};
    b.all = allocated(b.front + size + GUARD);
    b.copy = allocated(b.front + size + GUARD);
    b.bytes = b.all + b.front;
    for (size_t i = 0; i < b.front + size + GUARD; i++)
        b.all[i] = (uint8_t)(31 * turn + 7 * i + 129);
    return b;
}

static void lend(struct block *b)
{
    memcpy(b->copy, b->all, b->front + b->size + GUARD);
#ifdef MEMCHECK
    VALGRIND_MAKE_MEM_NOACCESS(b->all, b->front);
    VALGRIND_MAKE_MEM_NOACCESS(b->bytes + b->size, GUARD);
#endif
}

static void compare(struct block *b, const char *function, const char *name, int may_change)
{
    size_t end = b->front + b->size;
#ifdef MEMCHECK
    VALGRIND_MAKE_MEM_DEFINED(b->all, b->front);
    VALGRIND_MAKE_MEM_DEFINED(b->bytes + b->size, GUARD);
#endif
    if (memcmp(b->all, b->copy, b->front) != 0)
        printf("error %s wrote before %s\n", function, name);
    if (memcmp(b->all + end, b->copy + end, GUARD) != 0)
        printf("error %s wrote behind %s\n", function, name);
    if (!may_change && memcmp(b->bytes, b->copy + b->front, b->size) != 0)
        printf("error %s changed %s\n", function, name);
}

static void print(const struct block *b)
{
    putchar(' ');
    if (b->size == 0)
        putchar('-');
    for (size_t i = 0; i < b->size; i++) {
        putchar("0123456789abcdef"[b->bytes[i] >> 4]);
        putchar("0123456789abcdef"[b->bytes[i] & 15]);
    }
}

static void release(struct block *b)
{
    free(b->all);
    free(b->copy);
}

#define BYTES(k) b[k].bytes, b[k].size
#define HALVES(k) (uint16_t *)b[k].bytes, b[k].size / 2
#define WORDS(k) (uint32_t *)b[k].bytes, b[k].size / 4

static uint64_t call(int function, struct block *b, size_t *value)
{
    switch (function) {
    case CHECK:
        return net_check(BYTES(0), (size_t *)b[1].bytes, value);
    case FLATTEN:
        return net_flatten(BYTES(0), BYTES(1), value);
    case WRITE:
        return net_write((uint16_t *)b[0].bytes, HALVES(1), HALVES(2), HALVES(3), HALVES(4), BYTES(5), value);
    case FRESH:
        return net_fresh(BYTES(0), WORDS(1), HALVES(2), HALVES(3), value);
    case FLAT_ROW:
        return net_flat_row(BYTES(0), WORDS(1), HALVES(2), HALVES(3), HALVES(4), value);
    default:
        return net_subnet_row(BYTES(0), WORDS(1), HALVES(2), HALVES(3), HALVES(4), HALVES(5), value);
    }
}

/* A call that is made on another thread, and its answer. */
struct made {
    int function;
    struct block *lent;
    size_t *value;
    uint64_t answer;
};

static void *make(void *argument)
{
    struct made *m = argument;
    m->answer = call(m->function, m->lent, m->value);
    return NULL;
}

static void must(int fine)
{
    if (!fine) {
        fputs("harness: no thread\n", stderr);
        exit(2);
    }
}

/* The attributes of a thread with the stack that a call needs. */
static pthread_attr_t least_stack(void)
{
    pthread_attr_t attributes;
    uint8_t *memory = mmap(NULL, BELOW_STACK + NET_STACK_BYTES, PROT_NONE, MAP_PRIVATE | MAP_ANONYMOUS | MAP_NORESERVE, -1, 0);
    must(memory != MAP_FAILED);
    must(mprotect(memory + BELOW_STACK, NET_STACK_BYTES, PROT_READ | PROT_WRITE) == 0);
    must(pthread_attr_init(&attributes) == 0);
    must(pthread_attr_setstack(&attributes, memory + BELOW_STACK, NET_STACK_BYTES) == 0);
    return attributes;
}

static uint64_t made(const pthread_attr_t *attributes, int function, struct block *lent, size_t *value)
{
    struct made m = {function, lent, value, 0};
    pthread_t thread;
    must(pthread_create(&thread, attributes, make, &m) == 0);
    must(pthread_join(thread, NULL) == 0);
    return m.answer;
}

int main(void)
{
    const pthread_attr_t attributes = least_stack();
    int number;
    for (unsigned turn = 0; (number = getchar()) != EOF; turn++) {
        if (number >= FUNCTIONS) {
            fputs("harness: no such function\n", stderr);
            return 2;
        }
        const struct function *f = &functions[number];
        struct block lent[MOST_BUFFERS], value = block(sizeof(size_t), sizeof(size_t), turn);
        int count = 0;
        while (count < MOST_BUFFERS && f->lent[count].name != NULL) {
            uint32_t size;
            take(&size, sizeof size);
            lent[count] = block(size, f->lent[count].width, turn);
            take(lent[count].bytes, size);
            lend(&lent[count]);
            count++;
        }
        lend(&value);
        uint64_t answer = made(&attributes, number, lent, (size_t *)value.bytes);
        compare(&value, f->name, "value", 1);
        for (int k = 0; k < count; k++)
            compare(&lent[k], f->name, f->lent[k].name, answer == 0 && f->lent[k].use == WRITTEN);
        printf("%" PRIu64 " %zu", answer, *(size_t *)value.bytes);
        for (int k = 0; k < count; k++) {
            print(&lent[k]);
            release(&lent[k]);
        }
        release(&value);
        putchar('\n');
        fflush(stdout);     /* the lines are there also if a later call crashes */
    }
    return 0;
}
