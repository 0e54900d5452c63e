// A process that looks at the CPUs on which it may run, in a loop: `looker GROUP SEEN LOOKS NUMBER PAUSE` goes into a group first.
// Behind each look it counts in the file LOOKS, in the 8 bytes of its number, and sleeps for so many microseconds. The CPUs of a look
// that differ from those of the one before stand in the file SEEN, on a line of its own, before that look counts. It asks for them by
// sched_getaffinity, which copies them under the lock by which they are changed: Cpus_allowed_list is printed while they may change, so
// that of a move from 40 to 41 it can have 40-41.
#define _GNU_SOURCE
#include <fcntl.h>
#include <sched.h>
#include <stdint.h>
#include <stdio.h>
#include <stdlib.h>
#include <string.h>
#include <sys/mman.h>
#include <unistd.h>

static int enter(const char *group) {
    char path[4096];
    snprintf(path, sizeof path, "%s/cgroup.procs", group);
    int file = open(path, O_WRONLY);
    if (file < 0 || write(file, "0", 1) != 1) return 0;
    return close(file) == 0;
}

// A line with these CPUs, one by one.
static size_t print(const cpu_set_t *cpus, char *line) {
    char *end = line;
    for (int cpu = 0; cpu < CPU_SETSIZE; cpu++)
        if (CPU_ISSET(cpu, cpus)) end += sprintf(end, end == line ? "%d" : ",%d", cpu);
    *end++ = '\n';
    return end - line;
}

int main(int words, char **word) {
    if (words != 6 || !enter(word[1])) return 1;
    int seen = open(word[2], O_WRONLY | O_CREAT | O_APPEND, 0644), file = open(word[3], O_RDWR);
    long number = atol(word[4]), pause = atol(word[5]);
    uint64_t *looks = mmap(NULL, (number + 1) * sizeof *looks, PROT_READ | PROT_WRITE, MAP_SHARED, file, 0);
    if (seen < 0 || looks == MAP_FAILED) return 1;
    char line[5 * CPU_SETSIZE];
    cpu_set_t now, last;
    CPU_ZERO(&last);
    for (;;) {
        CPU_ZERO(&now);
        if (sched_getaffinity(0, sizeof now, &now)) return 1;
        if (!CPU_EQUAL(&now, &last)) {
            ssize_t length = print(&now, line);
            if (write(seen, line, length) != length) return 1;
        }
        last = now;
        __atomic_fetch_add(&looks[number], 1, __ATOMIC_SEQ_CST);
        usleep(pause);
    }
}
