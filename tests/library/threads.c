/* Hosts in threads: several at once, each in a thread of its own, and one that goes from thread to thread under a lock. */
#include "common.h"
#include <pthread.h>

#define THREADS 4
#define ROUNDS 20000

static void *runs_its_own(void *count)
{
    bpfhost *host = NULL;
    uint32_t last = 0;
    CHECK(bpfhost_new(&host, 2, &test_seed) == BPFHOST_DONE);
    open_counter(host, 1);
    for (int i = 0; i < ROUNDS; i++)
        last = count_once(host, 1);
    bpfhost_free(host);
    *(uint32_t *)count = last;
    return NULL;
}

static bpfhost *shared;
static pthread_mutex_t lock = PTHREAD_MUTEX_INITIALIZER;

/* The lent reply is read under the lock too. */
static void *takes_turns(void *sum)
{
    uint64_t found = 0;
    for (int i = 0; i < ROUNDS; i++) {
        pthread_mutex_lock(&lock);
        found += count_once(shared, 0);
        pthread_mutex_unlock(&lock);
    }
    *(uint64_t *)sum = found;
    return NULL;
}

int main(void)
{
    pthread_t threads[THREADS];
    uint32_t counts_found[THREADS];
    uint64_t sums[THREADS], sum = 0, all = (uint64_t)THREADS * ROUNDS;
    for (int i = 0; i < THREADS; i++)
        CHECK(pthread_create(&threads[i], NULL, runs_its_own, &counts_found[i]) == 0);
    for (int i = 0; i < THREADS; i++) {
        CHECK(pthread_join(threads[i], NULL) == 0);
        CHECK(counts_found[i] == ROUNDS);
    }
    CHECK(bpfhost_new(&shared, 1, &test_seed) == BPFHOST_DONE);
    open_counter(shared, 0);
    for (int i = 0; i < THREADS; i++)
        CHECK(pthread_create(&threads[i], NULL, takes_turns, &sums[i]) == 0);
    for (int i = 0; i < THREADS; i++) {
        CHECK(pthread_join(threads[i], NULL) == 0);
        sum += sums[i];
    }
    /* Each count from 1 on was given once. */
    CHECK(sum == all * (all + 1) / 2 && count_once(shared, 0) == all + 1);
    bpfhost_free(shared);
    puts("threads: a host each, and one host handed on");
    return 0;
}
