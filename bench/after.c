/* Starts a program, gives it the lines of a first file, waits for all replies, and prints the microseconds from then until
   it has replied to each line of a second file. The program writes one reply a line. */
#include <fcntl.h>
#include <stdio.h>
#include <string.h>
#include <sys/wait.h>
#include <time.h>
#include <unistd.h>

static char block[1 << 16];

static long line_feeds(const char *bytes, ssize_t length) {
    long count = 0;
    for (ssize_t at = 0; at < length; at++) count += bytes[at] == '\n';
    return count;
}

static long lines_of(const char *name) {
    int file = open(name, O_RDONLY);
    ssize_t got;
    long count = 0;
    while ((got = read(file, block, sizeof block)) > 0) count += line_feeds(block, got);
    close(file);
    return count;
}

/* Writes the file from a process of its own, so that replies are read meanwhile. */
static int give(const char *name, int to, int from) {
    long left = lines_of(name);
    ssize_t got;
    pid_t writer = fork();
    if (writer == 0) {
        int file = open(name, O_RDONLY);
        while ((got = read(file, block, sizeof block)) > 0)
            for (ssize_t at = 0, put; at < got; at += put)
                if ((put = write(to, block + at, (size_t)(got - at))) < 0) _exit(1);
        _exit(0);
    }
    while (left > 0 && (got = read(from, block, sizeof block)) > 0) left -= line_feeds(block, got);
    return writer > 0 && waitpid(writer, NULL, 0) == writer && left == 0;
}

int main(int count, char **words) {
    int in[2], out[2];
    if (count != 4 || pipe(in) || pipe(out)) return 1;
    pid_t program = fork();
    if (program == 0) {
        dup2(in[0], 0);
        dup2(out[1], 1);
        close(in[0]), close(in[1]), close(out[0]), close(out[1]);
        execl(words[1], words[1], (char *)NULL);
        _exit(127);
    }
    close(in[0]), close(out[1]);
    if (!give(words[2], in[1], out[0])) return 1;
    struct timespec begun, ended;
    clock_gettime(CLOCK_MONOTONIC, &begun);
    if (!give(words[3], in[1], out[0])) return 1;
    clock_gettime(CLOCK_MONOTONIC, &ended);
    close(in[1]);
    printf("%ld\n", (ended.tv_sec - begun.tv_sec) * 1000000L + (ended.tv_nsec - begun.tv_nsec) / 1000);
    return waitpid(program, NULL, 0) == program ? 0 : 1;
}
