/* The first process of the guest of trace_guest.sh: records all timers of its kernel under a load, while processors go off line and on line and the real
 * clock is set, hands the trace to the host, and ends. The kernel's command line has seconds=N and hotplug=0 or 1. */
#define _GNU_SOURCE
#include <fcntl.h>
#include <pthread.h>
#include <sched.h>
#include <signal.h>
#include <stdint.h>
#include <stdio.h>
#include <stdlib.h>
#include <string.h>
#include <sys/mount.h>
#include <sys/prctl.h>
#include <sys/reboot.h>
#include <sys/stat.h>
#include <sys/syscall.h>
#include <sys/timerfd.h>
#include <time.h>
#include <unistd.h>

#define TRACING "/sys/kernel/tracing/"
static volatile int over;

static int put(const char *name, const char *text) {
    int file = open(name, O_WRONLY | O_TRUNC);
    if (file < 0) return -1;
    ssize_t done = write(file, text, strlen(text));
    close(file);
    return done < 0 ? -1 : 0;
}

static unsigned random_below(unsigned *seed, unsigned end) { return (unsigned)rand_r(seed) % end; }

static struct timespec span(long ns) { return (struct timespec){ns / 1000000000, ns % 1000000000}; }

/* Sleeps, each with another slack. */
static void *sleeper(void *argument) {
    unsigned seed = (unsigned)(uintptr_t)argument;
    prctl(PR_SET_TIMERSLACK, 1ul + random_below(&seed, 200000));
    while (!over) {
        struct timespec t = span(20000 + random_below(&seed, 3000000));
        clock_nanosleep(random_below(&seed, 3) ? CLOCK_MONOTONIC : CLOCK_REALTIME, 0, &t, NULL);
    }
    return NULL;
}

/* Sleeps of a real-time task, and of one by deadline where the kernel takes it. */
static void *urgent(void *argument) {
    unsigned seed = (unsigned)(uintptr_t)argument;
    struct {
        uint32_t size, policy;
        uint64_t flags;
        int32_t nice;
        uint32_t priority;
        uint64_t runtime, deadline, period;
    } deadline = {56, 6, 0, 0, 0, 1000000, 5000000, 5000000};
    struct sched_param real_time = {10};
    if (seed % 2 || syscall(SYS_sched_setattr, 0, &deadline, 0)) sched_setscheduler(0, SCHED_FIFO, &real_time);
    while (!over) {
        struct timespec t = span(100000 + random_below(&seed, 2000000));
        for (volatile int i = 0; i < 20000; i++) {
        }
        nanosleep(&t, NULL);
    }
    return NULL;
}

/* Descriptors on three clocks, periodic and once, set again before they come due. */
static void *descriptors(void *argument) {
    static const int clocks[] = {CLOCK_MONOTONIC, CLOCK_REALTIME, CLOCK_BOOTTIME};
    unsigned seed = (unsigned)(uintptr_t)argument;
    int files[12];
    for (int i = 0; i < 12; i++) files[i] = timerfd_create(clocks[i % 3], TFD_NONBLOCK);
    while (!over) {
        int i = (int)random_below(&seed, 12), flags = 0;
        struct itimerspec set = {{0, 0}, span(30000 + random_below(&seed, 2000000))};
        if (random_below(&seed, 2)) set.it_interval = span(200000 + random_below(&seed, 3000000));
        if (random_below(&seed, 3) == 0) {
            struct timespec now;
            clock_gettime(clocks[i % 3], &now);
            set.it_value = span(now.tv_sec * 1000000000l + now.tv_nsec + 30000 + random_below(&seed, 2000000));
            flags = TFD_TIMER_ABSTIME;
        }
        timerfd_settime(files[i], flags, &set, NULL);
        uint64_t count;
        if (read(files[i], &count, 8) < 0) count = 0;
        struct timespec t = span(50000 + random_below(&seed, 400000));
        nanosleep(&t, NULL);
    }
    return NULL;
}

/* POSIX timers, whose signals nobody takes, made and deleted. */
static void *posix_timers(void *argument) {
    static const int clocks[] = {CLOCK_MONOTONIC, CLOCK_REALTIME, CLOCK_BOOTTIME};
    unsigned seed = (unsigned)(uintptr_t)argument;
    timer_t timers[6] = {0};
    struct sigevent event = {.sigev_notify = SIGEV_SIGNAL, .sigev_signo = SIGUSR1};
    for (int i = 0; i < 6; i++) timer_create(clocks[i % 3], &event, &timers[i]);
    while (!over) {
        int i = (int)random_below(&seed, 6);
        struct itimerspec set = {span(random_below(&seed, 2) ? 0 : 300000 + random_below(&seed, 2000000)), span(50000 + random_below(&seed, 2000000))};
        timer_settime(timers[i], 0, &set, NULL);
        if (random_below(&seed, 20) == 0) {
            timer_delete(timers[i]);
            timer_create(clocks[i % 3], &event, &timers[i]);
        }
        struct timespec t = span(50000 + random_below(&seed, 400000));
        nanosleep(&t, NULL);
    }
    return NULL;
}

/* Takes processors off line and on line. */
static void *hotplug(void *argument) {
    unsigned seed = 7;
    long count = (long)(intptr_t)argument, done = 0;
    while (!over && count > 1) {
        char name[80];
        snprintf(name, sizeof name, "/sys/devices/system/cpu/cpu%u/online", 1 + random_below(&seed, (unsigned)count - 1));
        done += put(name, "0") == 0;
        struct timespec t = span(10000000 + random_below(&seed, 60000000));
        nanosleep(&t, NULL);
        put(name, "1");
    }
    printf("guest: %ld times a processor went off line\n", done);
    return NULL;
}

/* Sets the real clock forth and back. */
static void *leaps(void *argument) {
    unsigned seed = 11;
    (void)argument;
    while (!over) {
        struct timespec t = span(20000000 + random_below(&seed, 80000000)), now;
        nanosleep(&t, NULL);
        clock_gettime(CLOCK_REALTIME, &now);
        now.tv_sec += random_below(&seed, 3) ? 1 : -1;
        clock_settime(CLOCK_REALTIME, &now);
    }
    return NULL;
}

static long number_of(const char *line, const char *key, long otherwise) {
    const char *at = strstr(line, key);
    return at ? atol(at + strlen(key)) : otherwise;
}

/* Hands the trace to the host: by the port, or, where the kernel has no virtio-console built in, by the disk. */
static void hand_over(void) {
    static char piece[1 << 16];
    int from = open(TRACING "trace", O_RDONLY), to = open("/dev/vport0p1", O_WRONLY);
    if (to < 0) to = open("/dev/nvme0n1", O_WRONLY);
    ssize_t count;
    while (from >= 0 && to >= 0 && (count = read(from, piece, sizeof piece)) > 0)
        for (ssize_t at = 0, done; at < count; at += done)
            if ((done = write(to, piece + at, (size_t)(count - at))) < 0) done = 0;
    fsync(to);
    close(to);
}

int main(void) {
    char line[4096] = "";
    mkdir("/proc", 0755), mkdir("/sys", 0755), mkdir("/dev", 0755);
    mount("proc", "/proc", "proc", 0, NULL);
    mount("sysfs", "/sys", "sysfs", 0, NULL);
    mount("devtmpfs", "/dev", "devtmpfs", 0, NULL);
    mount("tracefs", TRACING, "tracefs", 0, NULL);
    int console = open("/dev/console", O_RDWR);
    for (int i = 0; i < 3; i++) dup2(console, i);
    setvbuf(stdout, NULL, _IONBF, 0);
    int file = open("/proc/cmdline", O_RDONLY);
    if (read(file, line, sizeof line - 1) < 0) return 1;
    long seconds = number_of(line, "seconds=", 10);
    long count = number_of(line, "hotplug=", 0) ? sysconf(_SC_NPROCESSORS_ONLN) : 1;
    signal(SIGUSR1, SIG_IGN);
    put(TRACING "tracing_on", "0");
    put(TRACING "trace_clock", "mono");
    put(TRACING "buffer_size_kb", "131072");
    for (const char **name = (const char *[]){"init", "setup", "start", "cancel", "expire_entry", "expire_exit", NULL}; *name; name++) {
        char path[120];
        snprintf(path, sizeof path, TRACING "events/timer/hrtimer_%s/enable", *name);
        put(path, "1");
    }
    put(TRACING "tracing_on", "1");
    pthread_t thread;
    for (uintptr_t i = 1; i <= 10; i++) pthread_create(&thread, NULL, sleeper, (void *)i);
    for (uintptr_t i = 1; i <= 2; i++) pthread_create(&thread, NULL, urgent, (void *)i);
    for (uintptr_t i = 1; i <= 3; i++) pthread_create(&thread, NULL, descriptors, (void *)i);
    for (uintptr_t i = 1; i <= 3; i++) pthread_create(&thread, NULL, posix_timers, (void *)i);
    pthread_create(&thread, NULL, leaps, NULL);
    pthread_t plug;
    pthread_create(&plug, NULL, hotplug, (void *)(intptr_t)count);
    for (long i = 0; i < seconds; i++) sleep(1);
    put(TRACING "tracing_on", "0");
    over = 1;
    pthread_join(plug, NULL);
    hand_over();
    printf("guest: done\n");
    sync();
    reboot(RB_AUTOBOOT);
    return 0;
}
