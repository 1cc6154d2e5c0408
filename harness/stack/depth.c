// Runs a program and measures the stack that some of its functions take: at each entry it paints the memory below the stack
// pointer, and at the return it looks for the lowest byte that changed. Linux on x86-64.
//
//   depth SYMBOLS INPUT PROGRAM [ARGUMENT..]
//
// SYMBOLS has a line for each function, its address in the file (hexadecimal) and its name. INPUT is the standard input of
// the program; what it prints goes to standard error. For each function that was called it prints the most bytes of stack,
// the return address included, and the name.
#define _GNU_SOURCE
#include <errno.h>
#include <fcntl.h>
#include <stdint.h>
#include <stdio.h>
#include <stdlib.h>
#include <string.h>
#include <sys/personality.h>
#include <sys/ptrace.h>
#include <sys/user.h>
#include <sys/wait.h>
#include <unistd.h>

enum { PAINTED = 24 * 1024, MOST_FUNCTIONS = 512, PAINT = 0xa5, TRAP = 0xcc };

struct function {
    uint64_t at;
    uint64_t most;
    uint8_t first_byte;
    char name[256];
};

static struct function functions[MOST_FUNCTIONS];
static int function_count;
static pid_t child;
static int memory;

static void fail(const char *what) {
    fprintf(stderr, "depth: %s: %s\n", what, strerror(errno));
    exit(1);
}

static void read_bytes(uint64_t at, void *to, size_t size) {
    if (pread(memory, to, size, (off_t)at) != (ssize_t)size) fail("read of memory");
}

static void write_bytes(uint64_t at, const void *from, size_t size) {
    if (pwrite(memory, from, size, (off_t)at) != (ssize_t)size) fail("write of memory");
}

static uint8_t put_byte(uint64_t at, uint8_t byte) {
    uint8_t old;
    read_bytes(at, &old, 1);
    write_bytes(at, &byte, 1);
    return old;
}

static struct user_regs_struct registers(void) {
    struct user_regs_struct regs;
    if (ptrace(PTRACE_GETREGS, child, 0, &regs)) fail("registers");
    return regs;
}

static void go_to(struct user_regs_struct regs, uint64_t rip) {
    regs.rip = rip;
    if (ptrace(PTRACE_SETREGS, child, 0, &regs)) fail("registers");
}

// Lets the program go on; 0 where it has ended.
static int resume(int how) {
    int status;
    if (ptrace(how, child, 0, 0)) fail("resume");
    if (waitpid(child, &status, 0) < 0) fail("wait");
    if (WIFEXITED(status)) {
        if (WEXITSTATUS(status)) exit(1);
        return 0;
    }
    if (!WIFSTOPPED(status) || WSTOPSIG(status) != SIGTRAP) {
        fprintf(stderr, "depth: the program was stopped by a signal\n");
        exit(1);
    }
    return 1;
}

static void read_symbols(const char *path) {
    FILE *file = fopen(path, "r");
    if (!file) fail(path);
    while (function_count < MOST_FUNCTIONS &&
           fscanf(file, "%lx %255[^\n]", &functions[function_count].at, functions[function_count].name) == 2)
        function_count++;
    fclose(file);
}

// Where the program's file was loaded.
static uint64_t load_address(void) {
    char path[64];
    uint64_t start;
    snprintf(path, sizeof path, "/proc/%d/maps", child);
    FILE *file = fopen(path, "r");
    if (!file || fscanf(file, "%lx", &start) != 1) fail("maps");
    fclose(file);
    return start;
}

static void start(char **command, const char *input) {
    child = fork();
    if (child < 0) fail("fork");
    if (child == 0) {
        int from = open(input, O_RDONLY);
        if (from < 0 || dup2(from, 0) < 0 || dup2(2, 1) < 0) _exit(1);
        personality(ADDR_NO_RANDOMIZE);
        ptrace(PTRACE_TRACEME, 0, 0, 0);
        execv(command[0], command);
        _exit(1);
    }
    int status;
    if (waitpid(child, &status, 0) < 0 || !WIFSTOPPED(status)) fail("start");
    char path[64];
    snprintf(path, sizeof path, "/proc/%d/mem", child);
    memory = open(path, O_RDWR);
    if (memory < 0) fail(path);
}

// The program stands at the entry of a function: lets it run to the return, and notes the stack that it took.
static void measure(struct function *f, struct user_regs_struct regs) {
    static uint8_t stack[PAINTED];
    uint64_t back;
    memset(stack, PAINT, PAINTED);
    write_bytes(regs.rsp - PAINTED, stack, PAINTED);
    read_bytes(regs.rsp, &back, sizeof back);
    write_bytes(f->at, &f->first_byte, 1);
    uint8_t old = put_byte(back, TRAP);
    go_to(regs, f->at);
    if (!resume(PTRACE_CONT)) fail("the program ended in a call");
    struct user_regs_struct after = registers();
    if (after.rip != back + 1) fail("a measured function calls another");
    write_bytes(back, &old, 1);
    put_byte(f->at, TRAP);
    go_to(after, back);
    read_bytes(regs.rsp - PAINTED, stack, PAINTED);
    uint64_t clean = 0;
    while (clean < PAINTED && stack[clean] == PAINT) clean++;
    if (clean == 0) fail("a call took more stack than was painted");
    uint64_t taken = PAINTED - clean + sizeof back;
    if (taken > f->most) f->most = taken;
}

int main(int argc, char **argv) {
    if (argc < 4) {
        fprintf(stderr, "usage: depth SYMBOLS INPUT PROGRAM [ARGUMENT..]\n");
        return 2;
    }
    read_symbols(argv[1]);
    start(argv + 3, argv[2]);
    uint64_t base = load_address();
    for (int i = 0; i < function_count; i++) {
        functions[i].at += base;
        functions[i].first_byte = put_byte(functions[i].at, TRAP);
    }
    while (resume(PTRACE_CONT)) {
        struct user_regs_struct regs = registers();
        int i = 0;
        while (i < function_count && functions[i].at != regs.rip - 1) i++;
        if (i == function_count) fail("a stop at no function");
        measure(&functions[i], regs);
    }
    for (int i = 0; i < function_count; i++)
        if (functions[i].most) printf("%lu %s\n", functions[i].most, functions[i].name);
    return 0;
}
