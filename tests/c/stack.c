/* How much stack each call uses at most. A call is made in a thread whose stack was filled with a pattern; afterwards the lowest byte that differs from the
 * pattern says how far down it went. The sheet is the deepest that there is: region 0 has height 15 and two chains of regions below it, and the leaf that
 * is worked at the bottom of one chain, within 15 nested workings, updates the leaf of the other, from where the update climbs to region 0. It has holds. What
 * is converted is a sheet with as many words as there can be, whose odd arcs are self-arcs. */
#define _XOPEN_SOURCE 700
#include <pthread.h>
#include <stdio.h>
#include <string.h>

#include "pigrozk.h"

enum { ROOM = 1 << 19, PATTERN = 0xa5, HEIGHT = PIGROZK_MOST_SPANS, NODES = 3, ARCS = 2 };
enum { ALONE = PIGROZK_MOST_REGION_WORDS - PIGROZK_MOST_ARCS - (HEIGHT - 1) };

/* Half of the arcs and 1,016 of the regions with one are left: 2 + 15 + 1,024 + 2 * 1,024 + (15 + 2 * 1,016 + 7) words. */
enum { CONVERTED_BYTES = 20572 };

static uint8_t stack[ROOM] __attribute__((aligned(4096)));
static struct Sheet {
    uint8_t bytes[PIGROZK_MOST_BYTES];
    size_t count;
} deepest, largest;
static uint32_t table[PIGROZK_TABLE_WORDS(NODES)];
static uint32_t started[PIGROZK_LONGER_TABLE_WORDS(NODES, ARCS)];
static uint32_t buffer[NODES];
static uint8_t form[PIGROZK_MOST_BYTES];
static uint8_t *volatile start;
static volatile uint32_t code;

static void word(struct Sheet *to, uint32_t w) {
    for (int shift = 24; shift >= 0; shift -= 8) to->bytes[to->count++] = (uint8_t)(w >> shift);
}

static void arc(struct Sheet *to, uint32_t tail, uint32_t head) {
    word(to, 0x40000000 + (tail << 10) + head);
    word(to, 0x50000001);
}

/* Node count, source, spans and holds. */
static void front(struct Sheet *to, uint32_t nodes) {
    word(to, 0x10000000 + nodes);
    word(to, 0x20000000);
    for (int i = 0; i < HEIGHT; i++) word(to, 0x30000000 + PIGROZK_MOST_SPAN);
    for (uint32_t i = 0; i < nodes; i++) word(to, 0xd0000001);
}

/* Inner regions from `first` on, each in the one before, the first one in region 0, and at the bottom a leaf. */
static void chain(struct Sheet *to, uint32_t first, uint32_t arc) {
    for (uint32_t i = 0; i + 1 < HEIGHT; i++) word(to, 0x60000000 + (i == 0 ? 0 : first + i - 1));
    word(to, 0x70000000 + ((first + HEIGHT - 2) << 11) + arc);
}

static void write_deepest(void) {
    front(&deepest, NODES);
    for (uint32_t i = 0; i < ARCS; i++) arc(&deepest, i, i + 1);
    chain(&deepest, 1, 0);
    chain(&deepest, HEIGHT + 1, 1);
}

/* Beside the chain with arc 0 there are ALONE arcs, each in a region of its own, and the others on region 0. */
static void write_largest(void) {
    front(&largest, PIGROZK_MOST_NODES);
    for (uint32_t i = 0; i < PIGROZK_MOST_ARCS; i++) arc(&largest, i / 2, (i % 2 ? i / 2 : i / 2 + 1) % PIGROZK_MOST_NODES);
    chain(&largest, 1, 0);
    for (uint32_t i = 1; i < PIGROZK_MOST_ARCS; i++) {
        if (i <= ALONE) word(&largest, 0x60000000);
        word(&largest, 0x70000000 + ((i <= ALONE ? HEIGHT + 2 * i - 1 : 0) << 11) + i);
    }
}

static uint32_t judge(void) { return pigrozk_judge(deepest.bytes, deepest.count); }
static uint32_t run(void) { return pigrozk_run(deepest.bytes, deepest.count, table, PIGROZK_TABLE_WORDS(NODES)); }
static uint32_t run_limited(void) { return pigrozk_run_limited(deepest.bytes, deepest.count, 1, table, PIGROZK_TABLE_WORDS(NODES)); }
static uint32_t route(void) { return pigrozk_route(deepest.bytes, deepest.count, table, PIGROZK_TABLE_WORDS(NODES), 2, buffer, NODES); }
static uint32_t resume(void) { return pigrozk_resume(deepest.bytes, deepest.count, 1, started, PIGROZK_LONGER_TABLE_WORDS(NODES, ARCS)); }
static uint32_t canonical(void) { return pigrozk_canonical(deepest.bytes, deepest.count, form, sizeof form); }
static uint32_t convert(void) { return pigrozk_convert(largest.bytes, largest.count, form, sizeof form); }

struct Call {
    const char *name;
    uint32_t (*make)(void);
    uint32_t answer;
};

static void *within(void *call) {
    uint8_t here;
    start = &here;
    code = ((const struct Call *)call)->make();
    return NULL;
}

/* The bytes used by one call, or 0 if the thread can't be had or the answer is another. */
static size_t used(struct Call *call) {
    pthread_attr_t attributes;
    pthread_t thread;
    memset(stack, PATTERN, ROOM);
    if (pthread_attr_init(&attributes) || pthread_attr_setstack(&attributes, stack, ROOM)) return 0;
    if (pthread_create(&thread, &attributes, within, call) || pthread_join(thread, NULL)) return 0;
    pthread_attr_destroy(&attributes);
    size_t lowest = 0;
    while (stack[lowest] == PATTERN) lowest++;
    return code == call->answer ? (size_t)(start - (stack + lowest)) : 0;
}

int main(void) {
    write_deepest();
    write_largest();
    struct Call calls[] = {{"pigrozk_judge", judge, PIGROZK_ACCEPTED},
                           {"pigrozk_run", run, PIGROZK_ENDED},
                           {"pigrozk_run_limited", run_limited, PIGROZK_ENDED},
                           {"pigrozk_resume", resume, PIGROZK_ENDED},
                           {"pigrozk_route", route, PIGROZK_ROUTE + 2},
                           {"pigrozk_canonical", canonical, PIGROZK_WRITTEN + (uint32_t)deepest.count},
                           {"pigrozk_convert", convert, PIGROZK_WRITTEN + CONVERTED_BYTES}};
    int failures = pigrozk_run_limited(deepest.bytes, deepest.count, 0, started, PIGROZK_LONGER_TABLE_WORDS(NODES, ARCS)) != PIGROZK_PAUSED;
    failures += largest.count != PIGROZK_MOST_BYTES || pigrozk_judge(largest.bytes, largest.count) != 35;
    for (size_t i = 0; i < sizeof calls / sizeof calls[0]; i++) {
        size_t bytes = used(&calls[i]);
        int good = bytes > 0 && bytes <= PIGROZK_STACK_BYTES;
        printf("stack of %s: %zu bytes%s\n", calls[i].name, bytes, good ? "" : ", not within the limit");
        failures += !good;
    }
    return failures != 0;
}
