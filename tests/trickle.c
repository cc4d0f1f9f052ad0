/* trickle COUNT COMMAND..: runs the command with standard input handed on to it so that each of its reads gives so many bytes. */
#define _GNU_SOURCE
#include <fcntl.h>
#include <signal.h>
#include <stdio.h>
#include <stdlib.h>
#include <sys/wait.h>
#include <unistd.h>

enum { MOST = 4096 };

int main(int count, char **words) {
    char bytes[MOST];
    int ends[2], status = 0;
    size_t size = count > 2 ? (size_t)atol(words[1]) : 0, got;
    /* In a pipe of packets a read gives what one write gave. */
    if (size == 0 || size > MOST || pipe2(ends, O_DIRECT) != 0) return 99;
    signal(SIGPIPE, SIG_IGN);
    pid_t child = fork();
    if (child < 0) return 99;
    if (child == 0) {
        dup2(ends[0], STDIN_FILENO);
        close(ends[0]), close(ends[1]);
        execvp(words[2], words + 2);
        _exit(98);
    }
    close(ends[0]);
    while ((got = fread(bytes, 1, size, stdin)) > 0 && write(ends[1], bytes, got) == (ssize_t)got) {}
    close(ends[1]);
    waitpid(child, &status, 0);
    return WIFEXITED(status) ? WEXITSTATUS(status) : 97;
}
