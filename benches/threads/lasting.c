// Threads that last, in the place of those that a program starts: a library for LD_PRELOAD. A started function is handed to
// a thread that spins for its next one, and joining it is spinning until it has returned. So it shows what a program would
// gain whose threads never ended. Threads that are not joined, and attributes of threads, are not meant for it.
#define _GNU_SOURCE
#include <dlfcn.h>
#include <errno.h>
#include <pthread.h>
#include <stdatomic.h>
#include <stddef.h>

enum { MOST_THREADS = 64, LINE = 128 };

enum { IDLE, GIVEN, RETURNED };

// A thread that lasts, and the function that it is handed.
typedef struct {
    _Alignas(LINE) _Atomic int state;
    _Atomic int taken;
    int begun;
    void *(*function)(void *);
    void *argument, *result;
} seat;

static seat seats[MOST_THREADS];

typedef int create(pthread_t *, const pthread_attr_t *, void *(*)(void *), void *);

static void spin_until(_Atomic int *state, int wanted) {
    while (atomic_load_explicit(state, memory_order_acquire) != wanted)
        __builtin_ia32_pause();
}

static void *serve(void *argument) {
    seat *own = argument;
    for (;;) {
        spin_until(&own->state, GIVEN);
        own->result = own->function(own->argument);
        atomic_store(&own->state, RETURNED);
    }
    return NULL;
}

static int begin(seat *one) {
    create *start = (create *)dlsym(RTLD_NEXT, "pthread_create");
    pthread_t thread;
    one->begun = 1;
    return start(&thread, NULL, serve, one);
}

int pthread_create(pthread_t *thread, const pthread_attr_t *attributes, void *(*function)(void *), void *argument) {
    (void)attributes;
    for (seat *one = seats; one < seats + MOST_THREADS; one++) {
        int free = 0;
        if (!atomic_compare_exchange_strong(&one->taken, &free, 1))
            continue;
        int refused = one->begun ? 0 : begin(one);
        if (refused)
            return refused;
        one->function = function;
        one->argument = argument;
        atomic_store(&one->state, GIVEN);
        *thread = (pthread_t)one;
        return 0;
    }
    return EAGAIN;
}

int pthread_join(pthread_t thread, void **result) {
    seat *one = (seat *)thread;
    spin_until(&one->state, RETURNED);
    if (result != NULL)
        *result = one->result;
    atomic_store(&one->state, IDLE);
    atomic_store(&one->taken, 0);
    return 0;
}
