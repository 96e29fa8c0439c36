/* Runs a program to its end, and counts its futex calls: `futexes COUNT PROGRAM [WORD..]` writes the number to the
 * file COUNT, and ends with the program's status. A test tool, for programs of one thread. */
#include <stdio.h>
#include <sys/ptrace.h>
#include <sys/syscall.h>
#include <sys/user.h>
#include <sys/wait.h>
#include <unistd.h>

int main(int argc, char **argv) {
    if (argc < 3)
        return 125;
    pid_t child = fork();
    if (child < 0)
        return 125;
    if (child == 0) {
        ptrace(PTRACE_TRACEME, 0, NULL, NULL);
        execv(argv[2], argv + 2);
        _exit(125);
    }
    long count = 0;
    int status, entering = 1;
    waitpid(child, &status, 0);
    while (!WIFEXITED(status) && !WIFSIGNALED(status)) {
        if (ptrace(PTRACE_SYSCALL, child, NULL, NULL) != 0 || waitpid(child, &status, 0) < 0)
            return 125;
        struct user_regs_struct registers;
        if (WIFSTOPPED(status) && ptrace(PTRACE_GETREGS, child, NULL, &registers) == 0) {
            count += entering && registers.orig_rax == SYS_futex;
            entering = !entering;
        }
    }
    FILE *file = fopen(argv[1], "w");
    if (!file || fprintf(file, "%ld\n", count) < 0 || fclose(file) != 0)
        return 125;
    return WIFEXITED(status) ? WEXITSTATUS(status) : 124;
}
