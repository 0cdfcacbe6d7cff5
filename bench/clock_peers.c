// The kernel's clock, read by one thread and by two: the cases of crates/benches/src/clocks in which nobody writes.
#include <pthread.h>
#include <stddef.h>
#include <stdint.h>
#include <stdio.h>
#include <time.h>

enum { READS = 200000, ROUNDS = 5 };

static uint64_t now(void) {
    struct timespec t;
    clock_gettime(CLOCK_MONOTONIC, &t);
    return t.tv_sec * 1000000000ull + t.tv_nsec;
}

// Each thread has a sum of its own, so that no reading is left out.
static void *turn(void *sum) {
    for (int i = 0; i < READS; i++)
        *(uint64_t *)sum += now();
    return NULL;
}

static int run(int readers) {
    pthread_t thread;
    uint64_t sums[2][8] = {{0}};
    if (readers == 2 && pthread_create(&thread, NULL, turn, sums[1]) != 0)
        return -1;
    turn(sums[0]);
    return readers == 2 ? pthread_join(thread, NULL) : 0;
}

static int line(const char *name, int readers) {
    uint64_t start = now();
    for (int round = 0; round < ROUNDS; round++)
        if (run(readers) != 0)
            return 1;
    printf("clock_gettime\t%s\t%.1f\n", name, 1000.0 * READS * ROUNDS * readers / (now() - start));
    return 0;
}

int main(void) {
    return line("one thread reads", 1) || line("two threads read", 2);
}
