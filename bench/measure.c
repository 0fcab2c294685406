/* Runs a program and tells what it took.

       measure RESULT PROGRAM WORD..

   writes into the file RESULT: the user and the system time in microseconds, the peak of its
   memory in KiB, and its exit status (128 and above for a signal). The system counts the
   memory of whoever starts a program as the program's, up to its start. So a small program
   has to start it, and not a Python interpreter. */

#include <stdio.h>
#include <sys/resource.h>
#include <sys/wait.h>
#include <unistd.h>

static long long microseconds(struct timeval time)
{
    return time.tv_sec * 1000000LL + time.tv_usec;
}

int main(int count, char **words)
{
    if (count < 3)
        return 2;
    pid_t child = fork();
    if (child == 0) {
        execvp(words[2], words + 2);
        _exit(127);
    }
    int status;
    struct rusage used;
    if (child < 0 || wait4(child, &status, 0, &used) != child)
        return 2;
    FILE *result = fopen(words[1], "w");
    if (result == NULL)
        return 2;
    fprintf(result, "%lld %lld %ld %d\n", microseconds(used.ru_utime), microseconds(used.ru_stime), used.ru_maxrss,
            WIFEXITED(status) ? WEXITSTATUS(status) : 128 + WTERMSIG(status));
    return fclose(result) == 0 ? 0 : 2;
}
