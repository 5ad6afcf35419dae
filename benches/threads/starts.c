// What it takes to start threads that have nothing to do, and to join them: starts THREADS. Between two turns the caller
// sleeps, as a batch has parts in which other threads rest.
#include <pthread.h>
#include <stdio.h>
#include <stdlib.h>
#include <time.h>

enum { TURNS = 3000, MOST_THREADS = 64, PAUSE_IN_NANOSECONDS = 200000 };

static void *nothing(void *argument) { return argument; }

static double microseconds(void) {
    struct timespec time;
    clock_gettime(CLOCK_MONOTONIC, &time);
    return time.tv_sec * 1e6 + time.tv_nsec / 1e3;
}

static int by_size(const void *left, const void *right) {
    double difference = *(const double *)left - *(const double *)right;
    return difference < 0 ? -1 : difference > 0;
}

int main(int count, char **words) {
    int threads = count == 2 ? atoi(words[1]) : 0;
    if (threads < 1 || MOST_THREADS < threads) {
        fputs("starts THREADS, from 1 to 64\n", stderr);
        return 2;
    }
    static double started[TURNS], joined[TURNS];
    for (int turn = 0; turn < TURNS; turn++) {
        pthread_t all[MOST_THREADS];
        double begin = microseconds();
        for (int one = 0; one < threads; one++)
            if (pthread_create(&all[one], NULL, nothing, NULL) != 0)
                return 1;
        started[turn] = microseconds() - begin;
        for (int one = 0; one < threads; one++)
            pthread_join(all[one], NULL);
        joined[turn] = microseconds() - begin;
        nanosleep(&(struct timespec){0, PAUSE_IN_NANOSECONDS}, NULL);
    }
    qsort(started, TURNS, sizeof *started, by_size);
    qsort(joined, TURNS, sizeof *joined, by_size);
    printf("%d threads: started within %.0f microseconds, joined within %.0f\n", threads, started[TURNS / 2], joined[TURNS / 2]);
    return 0;
}
