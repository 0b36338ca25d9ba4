/* Runs a program and prints its exit status, user and system microseconds, and its peak memory in kilobytes on standard error.
 *
 *     measure PROGRAM WORD ..
 *
 * A program of its own, since the peak that the system tells of a child counts the memory of the one that started it. */

#include <stdio.h>
#include <sys/resource.h>
#include <sys/time.h>
#include <sys/wait.h>
#include <fcntl.h>
#include <unistd.h>

static long long micros(struct timeval t) { return t.tv_sec * 1000000ll + t.tv_usec; }

static int begin(char **words)
{
    int nowhere = open("/dev/null", O_WRONLY);
    if (nowhere >= 0)
        dup2(nowhere, 2);
    execvp(words[0], words);
    return 127;
}

int main(int count, char **words)
{
    if (count < 2) {
        fputs("use: measure PROGRAM WORD ..\n", stderr);
        return 2;
    }
    pid_t child = fork();
    if (child == 0)
        _exit(begin(words + 1));
    int status;
    struct rusage used;
    if (child < 0 || wait4(child, &status, 0, &used) < 0)
        return 1;
    fprintf(stderr, "%d %lld %lld %ld\n", WIFEXITED(status) ? WEXITSTATUS(status) : -WTERMSIG(status), micros(used.ru_utime),
            micros(used.ru_stime), used.ru_maxrss);
    return 0;
}
