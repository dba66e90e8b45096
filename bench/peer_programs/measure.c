/* Runs a program, and prints what it took: measure INPUT OUTPUT PROGRAM WORD..

   The line has its status (256 and the signal, where one ended it), the microseconds of its processor time and of the
   time from its start to its end, and the most memory that it held, in KiB. A new process counts the memory of the one
   that starts it as its own, and this one has little. */
#define _GNU_SOURCE
#include <fcntl.h>
#include <signal.h>
#include <stdio.h>
#include <stdlib.h>
#include <sys/prctl.h>
#include <sys/resource.h>
#include <sys/wait.h>
#include <time.h>
#include <unistd.h>

static double now(void) {
    struct timespec time;
    clock_gettime(CLOCK_MONOTONIC, &time);
    return time.tv_sec * 1e6 + time.tv_nsec / 1e3;
}

static double micros(struct timeval time) { return time.tv_sec * 1e6 + time.tv_usec; }

/* Becomes the program, which ends where this one is ended. */
static void become(char **words) {
    prctl(PR_SET_PDEATHSIG, SIGKILL);
    int input = open(words[0], O_RDONLY), output = open(words[1], O_WRONLY | O_CREAT | O_TRUNC, 0600);
    if (input >= 0 && output >= 0 && dup2(input, 0) == 0 && dup2(output, 1) == 1) execv(words[2], words + 2);
    perror(words[2]);
    _exit(127);
}

int main(int count, char **words) {
    if (count < 4) return 2;
    double begun = now();
    pid_t child = fork();
    if (child == 0) become(words + 1);
    int status;
    struct rusage used;
    if (child < 0 || wait4(child, &status, 0, &used) != child) return 1;
    double took = now() - begun, processor = micros(used.ru_utime) + micros(used.ru_stime);
    int told = WIFEXITED(status) ? WEXITSTATUS(status) : 256 + WTERMSIG(status);
    printf("%d %.0f %.0f %ld\n", told, processor, took, used.ru_maxrss);
    return 0;
}
