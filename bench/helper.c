/* See helper.h. */
#define _XOPEN_SOURCE 700
#include "helper.h"

#include <stdio.h>
#include <stdlib.h>
#include <sys/wait.h>
#include <unistd.h>

/* OpenSSL's switch for what it takes the processor to have, and its value without the SHA
 * instructions. */
#define SWITCH "OPENSSL_ia32cap"
#define WITHOUT_SHA ":~0x20000000"

static FILE *questions, *answers;

/* Ends the program where a step that must succeed did not. */
static void must(int done)
{
    if (!done) {
        fputs("bench: the run without SHA instructions failed\n", stderr);
        exit(1);
    }
}

void helper_start(const char *program)
{
    int there[2], back[2];
    must(pipe(there) == 0 && pipe(back) == 0);
    pid_t child = fork();
    must(child >= 0);
    if (child == 0) {
        must(dup2(there[0], STDIN_FILENO) >= 0 && dup2(back[1], STDOUT_FILENO) >= 0);
        must(close(there[1]) == 0 && close(back[0]) == 0);
        must(setenv(SWITCH, WITHOUT_SHA, 1) == 0);
        execl(program, program, HELPER, (char *)NULL);
        must(0);
    }
    must(close(there[0]) == 0 && close(back[1]) == 0);
    questions = fdopen(there[1], "w");
    answers = fdopen(back[0], "r");
    must(questions && answers);
}

double helper_timed(int row, unsigned calls)
{
    double time;
    must(fprintf(questions, "%d %u\n", row, calls) > 0 && fflush(questions) == 0);
    must(fscanf(answers, "%lf", &time) == 1);
    return time;
}

void helper_end(void)
{
    int status;
    must(fclose(questions) == 0 && fclose(answers) == 0);
    must(wait(&status) > 0 && status == 0);
}

void help(double (*timed)(int row, unsigned calls))
{
    int row;
    unsigned calls;
    while (scanf("%d %u", &row, &calls) == 2) {
        printf("%f\n", timed(row, calls));
        fflush(stdout);
    }
}
