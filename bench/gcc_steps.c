/* Runs a program and counts the instructions that it executes between two addresses, by single
 * steps: gcc_steps LOW HIGH PROGRAM. The count is the last line on standard error, and the status
 * is the program's. An instruction that a REP repeats stands still, and counts once. */
#include <signal.h>
#include <stddef.h>
#include <stdio.h>
#include <stdlib.h>
#include <sys/ptrace.h>
#include <sys/user.h>
#include <sys/wait.h>
#include <unistd.h>

enum { FAILED = 70 };

static void start(char **words)
{
    ptrace(PTRACE_TRACEME, 0, 0, 0);
    execv(words[0], words);
    _exit(FAILED);
}

/* The address of the next instruction. */
static unsigned long place(pid_t child)
{
    return ptrace(PTRACE_PEEKUSER, child, offsetof(struct user_regs_struct, rip), 0);
}

int main(int count, char **words)
{
    if (count != 4)
        return FAILED;
    unsigned long low = strtoul(words[1], 0, 0), high = strtoul(words[2], 0, 0), before = 0;
    unsigned long steps = 0;
    pid_t child = fork();
    if (child == 0)
        start(words + 3);
    int status;
    while (waitpid(child, &status, 0) == child && WIFSTOPPED(status)) {
        int given = WSTOPSIG(status) == SIGTRAP ? 0 : WSTOPSIG(status);
        unsigned long here = place(child);
        steps += low <= here && here < high && here != before;
        before = here;
        if (ptrace(PTRACE_SINGLESTEP, child, 0, given) < 0)
            break;
    }
    fprintf(stderr, "steps %lu\n", steps);
    return WIFEXITED(status) ? WEXITSTATUS(status) : FAILED;
}
