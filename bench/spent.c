/* Runs a program, which inherits standard input, with its output thrown away, and prints the microseconds of processor time
   that it took, of the user and the system, and the most memory that it held, in kilobytes. */
#include <fcntl.h>
#include <stdio.h>
#include <sys/resource.h>
#include <sys/wait.h>
#include <unistd.h>

int main(int count, char **words) {
    if (count < 2) return 1;
    pid_t child = fork();
    if (child < 0) return 1;
    if (child == 0) {
        int nowhere = open("/dev/null", O_WRONLY);
        dup2(nowhere, 1);
        execv(words[1], words + 1);
        _exit(127);
    }
    int status;
    struct rusage used;
    if (wait4(child, &status, 0, &used) < 0 || status) return 1;
    long long seconds = used.ru_utime.tv_sec + used.ru_stime.tv_sec;
    long long rest = used.ru_utime.tv_usec + used.ru_stime.tv_usec;
    printf("%lld %ld\n", seconds * 1000000 + rest, used.ru_maxrss);
    return 0;
}
