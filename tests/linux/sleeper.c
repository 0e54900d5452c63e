// What a container runs here: nothing, until it is killed, or a loop without end once it has a SIGUSR1. `sleeper GROUP` goes into a
// group first, writes its number on standard output, and is a child of the first process.
#include <fcntl.h>
#include <signal.h>
#include <stdio.h>
#include <unistd.h>

static void work(int number) {
    for (;;) {}
}

int main(int words, char **word) {
    char path[4096];
    signal(SIGUSR1, work);
    if (words > 1) {
        if (fork()) return 0;
        setsid();
        snprintf(path, sizeof path, "%s/cgroup.procs", word[1]);
        int file = open(path, O_WRONLY);
        if (file < 0 || write(file, "0", 1) != 1) return 1;
        close(file);
        dprintf(1, "%d", getpid());
        close(1);
    }
    for (;;) pause();
}
