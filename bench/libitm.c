/* The benchmark's jobs as transactions of GCC's transactional memory: begin, k loads, k stores,
   commit; every second one cancelled where ABORTED is 2. Where THREADS is 2, another thread has run
   a transaction too, and sleeps: from then on the library guards each access by locks and a log.
   While one thread alone uses transactions it does without.

       libitm K ABORTED THREADS TIMES      prints the nanoseconds of each job */

#include <pthread.h>
#include <semaphore.h>
#include <stdint.h>
#include <stdio.h>
#include <stdlib.h>
#include <time.h>
#include <unistd.h>

enum { WORDS = 512, REACH = 256 };

static uint64_t table[WORDS];

/* A macro, since GCC inlines no function here. */
#define ADDRESS(step, job) (((step) * 8 + (job)) % REACH)

/* The words that are stored need those that were loaded, or the compiler would drop the loads.
   A transaction that holds a cancel is compiled otherwise than one without, so each kind has its
   own function. */
__attribute__((noinline)) static void committed(size_t k, size_t job) {
    __transaction_atomic {
        uint64_t sum = job;
        for (size_t step = 0; step < k; step++) sum += table[ADDRESS(step, job)];
        for (size_t step = 0; step < k; step++) table[ADDRESS(step, job)] = sum;
    }
}

__attribute__((noinline)) static void cancelled(size_t k, size_t job) {
    __transaction_atomic {
        uint64_t sum = job;
        for (size_t step = 0; step < k; step++) sum += table[ADDRESS(step, job)];
        for (size_t step = 0; step < k; step++) table[ADDRESS(step, job)] = sum;
        __transaction_cancel;
    }
}

static double now(void) {
    struct timespec time;
    clock_gettime(CLOCK_MONOTONIC, &time);
    return time.tv_sec * 1e9 + time.tv_nsec;
}

static sem_t begun_too;

static void *other(void *unused) {
    committed(1, 0);
    sem_post(&begun_too);
    pause();
    return unused;
}

int main(int count, char **arguments) {
    if (count != 5) {
        puts("usage: libitm K ABORTED THREADS TIMES");
        return 2;
    }
    size_t k = strtoul(arguments[1], NULL, 10);
    size_t aborted = strtoul(arguments[2], NULL, 10);
    size_t threads = strtoul(arguments[3], NULL, 10);
    size_t times = strtoul(arguments[4], NULL, 10);
    if (threads > 1) {
        pthread_t thread;
        sem_init(&begun_too, 0, 0);
        if (pthread_create(&thread, NULL, other, NULL)) return 1;
        sem_wait(&begun_too);
    }
    double begun = now();
    for (size_t job = 0; job < times; job++) {
        if (aborted && job % aborted == 0) cancelled(k, job);
        else committed(k, job);
    }
    printf("%.1f\n", times ? (now() - begun) / times : 0.0);
    return 0;
}
