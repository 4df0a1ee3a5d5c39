/* Asks node 1 for a reset and prints the answer: cc -O2 -o session session.c && ./session PROGRAM TOPOLOGY */
#include <signal.h>
#include <stdio.h>
#include <string.h>
#include <sys/wait.h>
#include <unistd.h>

int main(int count, char **words) {
    int to[2], from[2], marked = 0, status = 0;
    char line[4096];
    if (count != 3) return fputs("usage: session PROGRAM TOPOLOGY\n", stderr), 2;
    if (pipe(to) || pipe(from)) return perror("session"), 1;
    pid_t child = fork();
    if (child < 0) return perror("session"), 1;
    if (child == 0) {
        dup2(to[0], 0), dup2(from[1], 1);
        close(to[1]), close(from[0]);
        execlp(words[1], words[1], "session", words[2], (char *)NULL);
        perror(words[1]);
        _exit(127);
    }
    close(to[0]), close(from[1]);
    signal(SIGPIPE, SIG_IGN); /* where the program has ended, that is noticed below: it doesn't answer */
    FILE *input = fdopen(to[1], "w"), *answers = fdopen(from[0], "r");
    /* the second line is no command: its answer, `bad line 2`, ends that of the first */
    fputs("request 1\n?\n", input), fflush(input);
    while (!marked && fgets(line, sizeof line, answers)) {
        marked = strcmp(line, "bad line 2\n") == 0;
        if (!marked) fputs(line, stdout);
    }
    fclose(input);
    waitpid(child, &status, 0);
    if (!marked) fprintf(stderr, "session: %s ended before its answer did\n", words[1]);
    return !marked || status != 0;
}
