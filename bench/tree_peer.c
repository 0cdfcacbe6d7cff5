// The kernel's own tree of timers: OP SIZE COUNT does an operation of crates/benches/src/trees so often on a queue of so many timers, untimed.
#include <linux/bug.h>
#include <linux/timerqueue.h>
#include <stdio.h>
#include <stdlib.h>
#include <string.h>

static struct timerqueue_head queue;
static struct timerqueue_node *nodes;
static uint64_t state = 0x9E3779B97F4A7C15u;

// Marsaglia's xorshift, as in crates/benches/src/random.rt.
static uint64_t next(void) {
    state ^= state << 13;
    state ^= state >> 7;
    state ^= state << 17;
    return state;
}

static uint64_t within(void) { return next() & 0xFFFFF; }

// Cancels a random timer, and starts it with a new expiry.
static void pair(unsigned size) {
    struct timerqueue_node *node = &nodes[next() % size];
    timerqueue_del(&queue, node);
    node->expires = within();
    timerqueue_add(&queue, node);
}

// Takes the first timer off, and starts it later.
static void hold(void) {
    struct timerqueue_node *first = timerqueue_getnext(&queue);
    timerqueue_del(&queue, first);
    first->expires += within();
    timerqueue_add(&queue, first);
}

int main(int count, char **words) {
    if (count != 4)
        return 2;
    unsigned size = atoi(words[2]);
    long times = atol(words[3]);
    if (size == 0 || (nodes = calloc(size, sizeof *nodes)) == NULL)
        return 2;
    timerqueue_init_head(&queue);
    for (unsigned i = 0; i < size; i++) {
        timerqueue_init(&nodes[i]);
        nodes[i].expires = within();
        timerqueue_add(&queue, &nodes[i]);
    }
    for (long i = 0; i < times; i++)
        if (strcmp(words[1], "pair") == 0)
            pair(size);
        else
            hold();
    return 0;
}
