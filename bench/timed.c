/* Runs a program in a folder some times, and prints the least processor time in milliseconds and the greatest memory
   in megabytes: timed RUNS FOLDER PROGRAM WORD.. Its output goes to /dev/null. Each run reads the input of `timed` anew. */
#include <fcntl.h>
#include <stdio.h>
#include <stdlib.h>
#include <sys/resource.h>
#include <sys/wait.h>
#include <unistd.h>

static double ms(struct timeval t) { return t.tv_sec * 1e3 + t.tv_usec / 1e3; }

int main(int argc, char **argv) {
    if (argc < 4) return 2;
    double least = 1e18;
    long memory = 0;
    for (int run = atoi(argv[1]); run > 0; run--) {
        pid_t child = fork();
        if (child == 0) {
            int none = open("/dev/null", O_WRONLY);
            if (none < 0 || chdir(argv[2]) != 0 || dup2(none, 1) < 0) _exit(127);
            lseek(0, 0, SEEK_SET);
            execv(argv[3], argv + 3);
            _exit(127);
        }
        int status;
        struct rusage used;
        if (child < 0 || wait4(child, &status, 0, &used) < 0) return 1;
        double time = ms(used.ru_utime) + ms(used.ru_stime);
        if (time < least) least = time;
        if (used.ru_maxrss > memory) memory = used.ru_maxrss;
    }
    printf("%8.1f ms %7.1f MB\n", least, memory / 1024.0);
    return 0;
}
