/* Runs a program and tells what it spent, for the groups deep, wide, hostile and speed: `spent FILE PROGRAM WORD..` writes into FILE the exit
   code, which is 128 and the number of a signal where that ended it, then the seconds of a processor, and the most memory in MB. */
#include <stdio.h>
#include <sys/resource.h>
#include <sys/wait.h>
#include <unistd.h>

int main(int count, char **words)
{
    if (count < 3)
        return 2;
    pid_t child = fork();
    if (child < 0)
        return 1;
    if (child == 0) {
        execv(words[2], words + 2);
        _exit(127);
    }
    int status;
    struct rusage used;
    if (wait4(child, &status, 0, &used) != child)
        return 1;
    FILE *file = fopen(words[1], "w");
    if (!file)
        return 1;
    double seconds = used.ru_utime.tv_sec + used.ru_stime.tv_sec + (used.ru_utime.tv_usec + used.ru_stime.tv_usec) / 1e6;
    fprintf(file, "%d %.3f %.0f\n", WIFSIGNALED(status) ? 128 + WTERMSIG(status) : WEXITSTATUS(status), seconds, used.ru_maxrss / 1000.0);
    return fclose(file) != 0;
}
