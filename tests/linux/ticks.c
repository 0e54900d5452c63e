// Prints how many thousand ticks a second this processor's time stamp counter makes. An emulated machine reads that counter too, and
// would have to find its speed out by itself, which takes seconds on a busy host and may go wrong. Where there is none, nothing is printed.
#include <stdio.h>
#include <time.h>

#ifdef __x86_64__
#include <x86intrin.h>

struct look {
    unsigned long long ticks, took;
    double seconds;
};

// The counter and the clock at once: that of many looks in which nobody came between the two.
static struct look look(void) {
    struct look best = {0, -1ull, 0};
    for (int k = 0; k < 1000; k++) {
        struct timespec time;
        unsigned long long before = __rdtsc();
        clock_gettime(CLOCK_MONOTONIC, &time);
        unsigned long long took = __rdtsc() - before;
        if (took < best.took) best = (struct look){before, took, time.tv_sec + time.tv_nsec / 1e9};
    }
    return best;
}

int main(void) {
    struct timespec pause = {0, 200000000};
    struct look first = look();
    nanosleep(&pause, NULL);
    struct look last = look();
    printf("%.0f\n", (last.ticks - first.ticks) / (last.seconds - first.seconds) / 1000);
}
#else
int main(void) {}
#endif
