/* Counts the machine instructions of a run, by letting a child carry it out one at a time. */
#include "steps.h"

#include <signal.h>
#include <stdbool.h>
#include <stddef.h>
#include <sys/ptrace.h>
#include <sys/wait.h>
#include <unistd.h>

static void nothing(const struct batch *b) { (void)b; }

/* The child: the run stands between two stops. */
static void be_stepped(run *f, const struct batch *b) {
    if (ptrace(PTRACE_TRACEME, 0, NULL, NULL)) _exit(1);
    raise(SIGSTOP);
    f(b);
    raise(SIGSTOP);
    _exit(0);
}

/* The steps from the first stop to the second, or -1 where the system does not let a process be stepped. */
static long between_stops(run *f, const struct batch *b) {
    int status = 0;
    pid_t child = fork();
    if (child == 0) be_stepped(f, b);
    if (child < 0 || waitpid(child, &status, 0) != child || !WIFSTOPPED(status)) return -1;
    long count = -1;
    do {
        count++;
        if (ptrace(PTRACE_SINGLESTEP, child, NULL, NULL) || waitpid(child, &status, 0) != child) status = 0;
    } while (WIFSTOPPED(status) && WSTOPSIG(status) == SIGTRAP);
    bool stopped = WIFSTOPPED(status) && WSTOPSIG(status) == SIGSTOP;
    kill(child, SIGKILL);
    waitpid(child, &status, 0);
    return stopped ? count : -1;
}

/* The stops have steps of their own, which an empty run has too. */
long steps(run *f, const struct batch *b) {
    long all = between_stops(f, b), own = between_stops(nothing, b);
    return all < 0 || own < 0 ? -1 : all - own;
}
