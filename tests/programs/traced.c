/* Runs a program of this machine, x86-64 or aarch64, and stands between it and Linux: a call fails, or every call moves few bytes.
     traced [SETTING=N].. -- PROGRAM WORDS..
   READ_FAILS=N    the Nth read of a file fails with ERROR           SHORT_READS=N    a read of a file gives N bytes at most
   WRITE_FAILS=N   the Nth write to standard output fails with it    SHORT_WRITES=N   a write to standard output takes N bytes at most
   OPEN_FAILS=N    the Nth open fails with it                        POLL_FAILS=N     the Nth wait for a descriptor fails with POLL_ERROR
   EVERY=1         not the Nth call alone fails but every Nth one    CALLS=N          more than N calls end the program: it would not wait
   NONBLOCK=1      standard output and what is opened do not wait    EMPTY=1          the program has no arguments, not even its name
   IGNORE_PIPE=1   SIGPIPE is ignored, and not as it is by default   NOBODY=1         root runs the program as nobody
   Ends as the program ends; one that takes more than a minute is ended. */
#define _GNU_SOURCE
#include <elf.h>
#include <fcntl.h>
#include <grp.h>
#include <signal.h>
#include <stdio.h>
#include <stdlib.h>
#include <string.h>
#include <sys/ptrace.h>
#include <sys/syscall.h>
#include <sys/uio.h>
#include <sys/user.h>
#include <sys/wait.h>
#include <unistd.h>

typedef struct user_regs_struct registers;
#if defined __x86_64__
#define NUMBER orig_rax
#define FIRST rdi
#define THIRD rdx
#define RESULT rax
#else
#define NUMBER regs[8]
#define FIRST regs[0]
#define THIRD regs[2]
#define RESULT regs[0]
#endif

enum { READ_FAILS, WRITE_FAILS, OPEN_FAILS, POLL_FAILS, SHORT_READS, SHORT_WRITES, ERROR, POLL_ERROR, EVERY, CALLS, NONBLOCK, EMPTY, IGNORE_PIPE, NOBODY, SETTINGS };
static const char *const names[SETTINGS] = {"READ_FAILS", "WRITE_FAILS", "OPEN_FAILS", "POLL_FAILS", "SHORT_READS", "SHORT_WRITES", "ERROR",
                                            "POLL_ERROR", "EVERY",       "CALLS",      "NONBLOCK",   "EMPTY",       "IGNORE_PIPE",  "NOBODY"};
static long setting[SETTINGS] = {[ERROR] = 5, [POLL_ERROR] = 22};
static long done[SETTINGS];
static pid_t child;

static void fail(const char *what) {
    perror(what);
    exit(99);
}

static void registers_of(int request, registers *r) {
    struct iovec all = {r, sizeof *r};
    if (ptrace(request, child, NT_PRSTATUS, &all) != 0) fail("traced: registers");
}

/* Has the program's call not made at all. */
static void skip(registers *r) {
#if defined __x86_64__
    r->NUMBER = (unsigned long)-1;
    registers_of(PTRACE_SETREGSET, r);
#else
    int none = -1;
    struct iovec number = {&none, sizeof none};
    (void)r;
    if (ptrace(PTRACE_SETREGSET, child, NT_ARM_SYSTEM_CALL, &number) != 0) fail("traced: call");
#endif
}

/* Whether this call of a kind is one that fails. */
static int is_failing(int kind) {
    long n = setting[kind];
    done[kind]++;
    return n > 0 && (setting[EVERY] ? done[kind] % n == 0 : done[kind] == n);
}

/* Before a call: the error that it is to give, or 0. */
static long before(registers *r) {
    long number = (long)r->NUMBER, fd = (int)r->FIRST;
    if (setting[CALLS] && ++done[CALLS] > setting[CALLS]) {
        kill(child, SIGKILL);
        exit(98);
    }
    if (number == SYS_openat && is_failing(OPEN_FAILS)) return setting[ERROR];
    if (number == SYS_ppoll && is_failing(POLL_FAILS)) return setting[POLL_ERROR];
    if (number == SYS_read && fd > 2 && is_failing(READ_FAILS)) return setting[ERROR];
    if (number == SYS_write && fd == 1 && is_failing(WRITE_FAILS)) return setting[ERROR];
    long most = number == SYS_read && fd > 2 ? setting[SHORT_READS] : number == SYS_write && fd == 1 ? setting[SHORT_WRITES] : 0;
    if (most > 0 && r->THIRD > (unsigned long)most) {
        r->THIRD = (unsigned long)most;
        registers_of(PTRACE_SETREGSET, r);
    }
    return 0;
}

/* What the program has opened does not wait from now on. */
static void let_not_wait(long fd) {
    int process = (int)syscall(SYS_pidfd_open, child, 0);
    int ours = (int)syscall(SYS_pidfd_getfd, process, fd, 0);
    if (ours < 0 || fcntl(ours, F_SETFL, fcntl(ours, F_GETFL) | O_NONBLOCK) != 0) fail("traced: descriptor");
    close(ours);
    close(process);
}

/* After a call: the program has its registers as they were, and the answer. */
static void after(const registers *asked, long error) {
    registers r;
    registers_of(PTRACE_GETREGSET, &r);
    r.THIRD = asked->THIRD;
    if (error) r.RESULT = (unsigned long)-error;
    registers_of(PTRACE_SETREGSET, &r);
    if (setting[NONBLOCK] && (long)asked->NUMBER == SYS_openat && (long)r.RESULT >= 0) let_not_wait((long)r.RESULT);
}

int main(int count, char **words) {
    int at = 1;
    for (; at < count && strcmp(words[at], "--") != 0; at++) {
        int i = 0;
        size_t n = strcspn(words[at], "=");
        while (i < SETTINGS && (strlen(names[i]) != n || strncmp(names[i], words[at], n) != 0)) i++;
        if (i == SETTINGS || words[at][n] != '=') fail(words[at]);
        setting[i] = atol(words[at] + n + 1);
    }
    if (at + 1 >= count) fail("traced: no program");
    child = fork();
    if (child < 0) fail("traced: fork");
    if (child == 0) {
        char *none[] = {NULL};
        signal(SIGPIPE, setting[IGNORE_PIPE] ? SIG_IGN : SIG_DFL);
        if (setting[NONBLOCK]) fcntl(1, F_SETFL, fcntl(1, F_GETFL) | O_NONBLOCK);
        if (setting[NOBODY] && (setgroups(0, NULL) != 0 || setgid(65534) != 0 || setuid(65534) != 0)) fail("traced: nobody");
        if (ptrace(PTRACE_TRACEME, 0, 0, 0) != 0) fail("traced: ptrace");
        raise(SIGSTOP);
        execv(words[at + 1], setting[EMPTY] ? none : words + at + 1);
        fail(words[at + 1]);
    }
    alarm(60);
    int status, execed = 0, started = 0, inside = 0;
    if (waitpid(child, &status, 0) != child || !WIFSTOPPED(status)) return 99;
    if (ptrace(PTRACE_SETOPTIONS, child, 0, PTRACE_O_TRACESYSGOOD | PTRACE_O_TRACEEXEC | PTRACE_O_EXITKILL) != 0) fail("traced: options");
    long signal_for_it = 0, error = 0;
    registers asked;
    for (;;) {
        if (ptrace(PTRACE_SYSCALL, child, 0, signal_for_it) != 0) fail("traced: go on");
        signal_for_it = 0;
        if (waitpid(child, &status, 0) != child) fail("traced: wait");
        if (WIFEXITED(status)) return WEXITSTATUS(status);
        if (WIFSIGNALED(status)) {
            signal(WTERMSIG(status), SIG_DFL);
            raise(WTERMSIG(status));
            return 128 + WTERMSIG(status);
        }
        if (status >> 8 == (SIGTRAP | PTRACE_EVENT_EXEC << 8)) {
            execed = 1;
        } else if (WSTOPSIG(status) != (SIGTRAP | 0x80)) {
            signal_for_it = WSTOPSIG(status);
        } else {
            inside = !inside;
            if (!started) {
                started = execed && !inside;
            } else if (inside) {
                registers_of(PTRACE_GETREGSET, &asked);
                registers changed = asked;
                error = before(&changed);
                if (error) skip(&changed);
            } else {
                after(&asked, error);
            }
        }
    }
}
