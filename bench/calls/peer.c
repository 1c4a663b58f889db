// Calls a list of words from many threads under a mutex of the C library: how many threads, how often each calls, and how
// many steps of work a call does while it holds the mutex.
#include <pthread.h>
#include <stdint.h>
#include <stdio.h>
#include <stdlib.h>

enum { WORDS = 256 };

static pthread_mutex_t mutex = PTHREAD_MUTEX_INITIALIZER;
static uint64_t words[WORDS];
static long count, steps;

static void *call_often(void *unused) {
    for (long call = 0; call < count; call++) {
        pthread_mutex_lock(&mutex);
        for (long step = 0; step < steps; step++) {
            words[step % WORDS] += words[(step + 1) % WORDS] ^ (uint64_t)call;
        }
        pthread_mutex_unlock(&mutex);
    }
    return unused;
}

int main(int argc, char **argv) {
    if (argc != 4) {
        return 2;
    }
    long threads = atol(argv[1]);
    count = atol(argv[2]);
    steps = atol(argv[3]);
    pthread_t *all = calloc((size_t)threads + 1, sizeof *all);
    long began = 0;
    while (all && began < threads && pthread_create(&all[began], NULL, call_often, NULL) == 0) {
        began++;
    }
    for (long thread = 0; thread < began; thread++) {
        pthread_join(all[thread], NULL);
    }
    printf("%ld\n", began);
    return 0;
}
