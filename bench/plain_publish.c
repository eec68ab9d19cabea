/* The plain program beside mint's publication: numbers that three readers read while a writer appends
   to them. By `swap` each reader has a slot with a pointer to one of two copies, which it takes out by
   an atomic exchange and puts back by another one; the writer puts the newer copy into each slot. By
   `lock` all share one copy under a reader-writer lock that prefers writers. By `load` the readers load
   a pointer and put nothing back, so nobody could ever change what they read: no writer runs.
   It prints the lines of the program that it stands beside.
   Usage: plain_publish swap|lock|load */
#define _GNU_SOURCE
#include <pthread.h>
#include <sched.h>
#include <stdatomic.h>
#include <stdint.h>
#include <stdio.h>
#include <stdlib.h>
#include <string.h>
#include <time.h>

enum { READERS = 3, ROOM = 65536, PUBLISHED = 20000, VIEWS = 2000000, TRIES = 64 };

typedef struct { uint64_t *items; uint32_t len; } numbers;
typedef struct { _Alignas(128) _Atomic(numbers *) shown; } slot;
typedef struct { uint64_t done, missed, nanos; } lap;
typedef struct { int reader; uint64_t most; lap lap; } job;

static numbers copies[2];
static slot slots[READERS];
static pthread_rwlock_t lock;
static int current;
static _Atomic int begun, over;
static _Atomic uint64_t total;

static uint64_t now(void) {
    struct timespec time;
    clock_gettime(CLOCK_MONOTONIC, &time);
    return (uint64_t)time.tv_sec * 1000000000u + (uint64_t)time.tv_nsec;
}

static int view_by_swap(int reader, uint32_t *len) {
    for (int try = 0; try < TRIES; try++) {
        numbers *shown = atomic_exchange(&slots[reader].shown, NULL);
        if (!shown) continue;
        *len = shown->len;
        atomic_exchange(&slots[reader].shown, shown);
        return 1;
    }
    return 0;
}

static int view_by_lock(int reader, uint32_t *len) {
    (void)reader;
    pthread_rwlock_rdlock(&lock);
    *len = copies[0].len;
    pthread_rwlock_unlock(&lock);
    return 1;
}

static int view_by_load(int reader, uint32_t *len) {
    (void)reader;
    *len = atomic_load(&slots[0].shown)->len;
    return 1;
}

static void append(numbers *copy, uint64_t number) {
    copy->items[copy->len] = number;
    copy->len++;
}

static void publish_by_swap(uint64_t number) {
    numbers *shown = &copies[current], *spare = &copies[!current];
    if (spare->len < shown->len) append(spare, shown->items[shown->len - 1]);
    append(spare, number);
    for (int reader = 0; reader < READERS; reader++)
        for (numbers *old = shown; !atomic_compare_exchange_strong(&slots[reader].shown, &old, spare); old = shown)
            sched_yield();
    current = !current;
}

static void publish_by_lock(uint64_t number) {
    pthread_rwlock_wrlock(&lock);
    append(&copies[0], number);
    pthread_rwlock_unlock(&lock);
}

static int (*view)(int, uint32_t *) = view_by_swap;
static void (*publish)(uint64_t) = publish_by_swap;

static void *views_of(void *argument) {
    job *job = argument;
    uint64_t sum = 0, missed = 0, done = 0, start = now();
    atomic_fetch_add(&begun, 1);
    while (done < job->most) {
        uint32_t len;
        done++;
        if (view(job->reader, &len)) sum += len;
        else missed++;
        if (atomic_load(&over)) break;
    }
    job->lap = (lap){done, missed, now() - start};
    atomic_fetch_add(&total, sum);
    return NULL;
}

/* What so many readers did side by side, beside so many publishes if there are any. */
static lap views_by(int readers, uint64_t most, int publishes, lap *published) {
    pthread_t threads[READERS];
    job jobs[READERS];
    lap all = {0, 0, 0};
    atomic_store(&begun, 0);
    atomic_store(&over, 0);
    for (int reader = 0; reader < readers; reader++) {
        jobs[reader] = (job){reader, most, {0, 0, 0}};
        if (pthread_create(&threads[reader], NULL, views_of, &jobs[reader])) exit(1);
    }
    if (publishes > 0) {
        while (atomic_load(&begun) < readers) sched_yield();
        uint64_t start = now();
        for (int number = 0; number < publishes; number++) publish((uint64_t)number);
        *published = (lap){(uint64_t)publishes, 0, now() - start};
        atomic_store(&over, 1);
    }
    for (int reader = 0; reader < readers; reader++) {
        pthread_join(threads[reader], NULL);
        all.done += jobs[reader].lap.done;
        all.missed += jobs[reader].lap.missed;
        if (jobs[reader].lap.nanos > all.nanos) all.nanos = jobs[reader].lap.nanos;
    }
    return all;
}

static void print_lap(const char *name, lap lap) {
    printf("%s %llu %llu %llu\n", name, (unsigned long long)lap.done, (unsigned long long)lap.missed,
           (unsigned long long)lap.nanos);
}

int main(int count, char **words) {
    if (count != 2) return 2;
    int is_load = strcmp(words[1], "load") == 0;
    if (strcmp(words[1], "lock") == 0) {
        view = view_by_lock;
        publish = publish_by_lock;
    } else if (is_load) {
        view = view_by_load;
    } else if (strcmp(words[1], "swap") != 0) {
        return 2;
    }
    pthread_rwlockattr_t attributes;
    pthread_rwlockattr_init(&attributes);
    pthread_rwlockattr_setkind_np(&attributes, PTHREAD_RWLOCK_PREFER_WRITER_NONRECURSIVE_NP);
    pthread_rwlock_init(&lock, &attributes);
    for (int copy = 0; copy < 2; copy++)
        if (!(copies[copy].items = malloc(ROOM * sizeof(uint64_t)))) return 1;
    for (int reader = 0; reader < READERS; reader++) atomic_store(&slots[reader].shown, &copies[0]);
    lap published;
    print_lap("one", views_by(1, VIEWS, 0, NULL));
    print_lap("three", views_by(READERS, VIEWS, 0, NULL));
    if (is_load) return 0;
    print_lap("beside", views_by(READERS, UINT64_MAX, PUBLISHED, &published));
    print_lap("publishes", published);
    return 0;
}
