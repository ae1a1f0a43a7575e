/* Runs a program one instruction at a time and holds what the processor does
   against what `pomthija list --steps` claims of a file, the program's own or a
   library's that it is loaded with:

   - an instruction that is not call-like changes no general register and none of
     CF, PF, ZF, SF, OF but those that it is said to change;
   - control comes to an instruction from the one before it, or a block starts
     there, or the one before it is call-like;
   - a branch that is always taken is taken, and one that is never taken is not;
   - what is dead by the verdicts is not run.

   The file and the program may be of 32 bits.

   usage: trace_steps CLAIMS FILE PROGRAM ARGUMENT...
   The status is 1 if a claim did not hold, 2 if the program could not be run. */
#include <elf.h>
#include <fcntl.h>
#include <signal.h>
#include <stdint.h>
#include <stdio.h>
#include <stdlib.h>
#include <string.h>
#include <sys/ptrace.h>
#include <sys/user.h>
#include <sys/wait.h>
#include <unistd.h>

struct claim {
    uint64_t address, next, target;
    unsigned registers, flags;
    char call_like, block;
    char verdict; /* a, n, d for dead, or - */
    uint64_t seen;
};

static struct claim *claims;
static size_t count;
static unsigned long steps, wrong;

static void fail(const char *message)
{
    fprintf(stderr, "%s\n", message);
    exit(2);
}

static void read_claims(const char *path)
{
    FILE *file = fopen(path, "r");
    size_t room = 0;
    struct claim c = {0};
    char verdict[8];
    if (!file)
        fail("the claims cannot be read");
    while (fscanf(file, "%lx %lx %c %x %x %c %lx %7s", &c.address, &c.next, &c.call_like,
                  &c.registers, &c.flags, &c.block, &c.target, verdict) == 8) {
        c.verdict = verdict[0];
        if (count == room) {
            room = room ? 2 * room : 4096;
            claims = realloc(claims, room * sizeof *claims);
            if (!claims)
                fail("no memory");
        }
        claims[count++] = c;
    }
    if (!feof(file) || count == 0)
        fail("the claims are not as pomthija list --steps writes them");
    fclose(file);
}

/* The last claim at the address or before it. */
static struct claim *claim_before(uint64_t address)
{
    size_t low = 0, high = count;
    while (low < high) {
        size_t middle = low + (high - low) / 2;
        if (claims[middle].address <= address)
            low = middle + 1;
        else
            high = middle;
    }
    return low > 0 ? &claims[low - 1] : NULL;
}

static struct claim *claim_at(uint64_t address)
{
    struct claim *before = claim_before(address);
    return before && before->address == address ? before : NULL;
}

/* Whether an ELF file is of 32 bits. */
static int is_short(const char *path)
{
    unsigned char head[EI_NIDENT];
    FILE *file = fopen(path, "rb");
    if (!file || fread(head, sizeof head, 1, file) != 1)
        fail("the file cannot be read");
    fclose(file);
    return head[EI_CLASS] == ELFCLASS32;
}

/* Where the program starts, from what the system tells it. The words there are those of the program. */
static uint64_t entry_of(pid_t child, int words_of_four)
{
    char path[64];
    uint64_t pair[2];
    uint32_t pair_of_four[2];
    void *to = words_of_four ? (void *)pair_of_four : (void *)pair;
    size_t size = words_of_four ? sizeof pair_of_four : sizeof pair;
    int file;
    snprintf(path, sizeof path, "/proc/%d/auxv", (int)child);
    file = open(path, O_RDONLY);
    do {
        if (read(file, to, size) != (ssize_t)size)
            fail("the start of the program cannot be read");
        if (words_of_four) {
            pair[0] = pair_of_four[0];
            pair[1] = pair_of_four[1];
        }
    } while (pair[0] != AT_ENTRY);
    close(file);
    return pair[1];
}

/* Lets the program run to its first instruction. What the loader does before is
   of another file. */
static void start(pid_t child, int words_of_four)
{
    uint64_t entry = entry_of(child, words_of_four);
    struct user_regs_struct r;
    int status;
    long word = ptrace(PTRACE_PEEKTEXT, child, (void *)entry, NULL);
    ptrace(PTRACE_POKETEXT, child, (void *)entry, (void *)((word & ~0xffL) | 0xcc));
    ptrace(PTRACE_CONT, child, NULL, NULL);
    if (waitpid(child, &status, 0) < 0 || !WIFSTOPPED(status) || WSTOPSIG(status) != SIGTRAP)
        fail("the program did not come to its first instruction");
    ptrace(PTRACE_POKETEXT, child, (void *)entry, (void *)word);
    ptrace(PTRACE_GETREGS, child, NULL, &r);
    r.rip = entry;
    ptrace(PTRACE_SETREGS, child, NULL, &r);
}

/* The address that the file gives to its first byte. */
static uint64_t first_address(const char *path)
{
    union {
        Elf64_Ehdr of_64;
        Elf32_Ehdr of_32;
    } header;
    union {
        Elf64_Phdr of_64;
        Elf32_Phdr of_32;
    } segment;
    int is_32 = is_short(path);
    FILE *file = fopen(path, "rb");
    if (!file || fread(&header, sizeof header, 1, file) != 1)
        fail("the file cannot be read");
    int count = is_32 ? header.of_32.e_phnum : header.of_64.e_phnum;
    for (int i = 0; i < count; i++) {
        uint64_t at = is_32 ? header.of_32.e_phoff + (uint64_t)i * sizeof segment.of_32
                            : header.of_64.e_phoff + (uint64_t)i * sizeof segment.of_64;
        fseek(file, (long)at, SEEK_SET);
        if (fread(&segment, is_32 ? sizeof segment.of_32 : sizeof segment.of_64, 1, file) != 1)
            fail("the file cannot be read");
        int loaded = segment.of_32.p_type == PT_LOAD; /* the type is first in both */
        if (loaded && (is_32 ? segment.of_32.p_offset : segment.of_64.p_offset) == 0) {
            fclose(file);
            return is_32 ? segment.of_32.p_vaddr : segment.of_64.p_vaddr;
        }
    }
    fail("the file's first byte is not loaded");
    return 0;
}

/* How far from its addresses the file is loaded. */
static uint64_t bias(pid_t child, const char *path)
{
    char real[4096], line[8192], name[4096];
    uint64_t from, offset;
    FILE *maps;
    if (!realpath(path, real))
        fail("there is no such file");
    snprintf(line, sizeof line, "/proc/%d/maps", (int)child);
    maps = fopen(line, "r");
    while (maps && fgets(line, sizeof line, maps))
        if (sscanf(line, "%lx-%*x %*s %lx %*s %*s %4095[^\n]", &from, &offset, name) == 3
            && offset == 0 && strcmp(name, real) == 0) {
            fclose(maps);
            return from - first_address(path);
        }
    fail("the file is not loaded with the program");
    return 0;
}

/* In the order of their numbers. */
static void registers_of(const struct user_regs_struct *r, uint64_t out[16])
{
    const uint64_t list[16] = {r->rax, r->rcx, r->rdx, r->rbx, r->rsp, r->rbp, r->rsi, r->rdi,
                               r->r8,  r->r9,  r->r10, r->r11, r->r12, r->r13, r->r14, r->r15};
    memcpy(out, list, sizeof list);
}

/* CF 1, PF 2, ZF 4, SF 8, OF 16. */
static unsigned flags_of(const struct user_regs_struct *r)
{
    return (r->eflags & 1) | (r->eflags >> 2 & 1) << 1 | (r->eflags >> 6 & 1) << 2
           | (r->eflags >> 7 & 1) << 3 | (r->eflags >> 11 & 1) << 4;
}

static void violation(const char *what, uint64_t address)
{
    if (wrong++ < 10)
        printf("at %lx: %s\n", address, what);
}

static void check_changes(const struct claim *c, const struct user_regs_struct *before,
                          const struct user_regs_struct *after)
{
    uint64_t old[16], new[16];
    unsigned flags = flags_of(before) ^ flags_of(after);
    registers_of(before, old);
    registers_of(after, new);
    for (int i = 0; i < 16; i++)
        if (old[i] != new[i] && !(c->registers >> i & 1))
            violation("a register changed that is not declared", c->address);
    if (flags & ~c->flags)
        violation("a flag changed that is not declared", c->address);
}

/* `last` has run and control is at `address`; `here` is the claim there. */
static void check_control(struct claim *last, const struct claim *here, uint64_t address)
{
    if (last) {
        last->seen++;
        if (last->verdict == 'a' && address != last->target)
            violation("always taken, and it was not", last->address);
        if (last->verdict == 'n' && address != last->next)
            violation("never taken, and it was", last->address);
    }
    const struct claim *around = claim_before(address);
    if (around && around->verdict == 'd' && (address == around->address || address < around->next))
        violation("dead, and it is run", address);
    if (!here || here->block == 'b')
        return;
    if (last && (last->next == address || last == here))
        return; /* gone on, or a string instruction repeated */
    if (here > claims && here[-1].call_like == 'c' && here[-1].next == address)
        return;
    violation("entered, and no block starts there", address);
}

static void trace(pid_t child, uint64_t offset)
{
    struct user_regs_struct before, after;
    struct claim *last = NULL;
    int status, passed, signal = 0;
    ptrace(PTRACE_GETREGS, child, NULL, &before);
    for (;;) {
        passed = signal;
        if (ptrace(PTRACE_SINGLESTEP, child, NULL, (void *)(long)signal) != 0)
            fail("the program cannot be traced");
        if (waitpid(child, &status, 0) < 0 || WIFEXITED(status) || WIFSIGNALED(status))
            return;
        signal = WSTOPSIG(status) == SIGTRAP ? 0 : WSTOPSIG(status);
        ptrace(PTRACE_GETREGS, child, NULL, &after);
        if (signal != 0 || passed != 0) {
            /* The instruction has not run; or control is at a handler's first one. */
            last = NULL;
            before = after;
            continue;
        }
        last = claim_at(before.rip - offset);
        steps += last != NULL;
        if (last && last->call_like != 'c')
            check_changes(last, &before, &after);
        check_control(last, claim_at(after.rip - offset), after.rip - offset);
        before = after;
    }
}

static void report(void)
{
    unsigned long decided = 0, run = 0, times = 0, instructions = 0;
    for (size_t i = 0; i < count; i++) {
        instructions += claims[i].seen != 0;
        if (claims[i].verdict != 'a' && claims[i].verdict != 'n')
            continue;
        decided++;
        run += claims[i].seen != 0;
        times += claims[i].seen;
    }
    printf("steps in the file %lu, on %lu of its %lu instructions\n", steps, instructions,
           (unsigned long)count);
    printf("decided branches %lu, run %lu of them, %lu times\n", decided, run, times);
    printf("claims that did not hold %lu\n", wrong);
}

int main(int argc, char **argv)
{
    int status;
    pid_t child;
    if (argc < 4)
        fail("usage: trace_steps CLAIMS FILE PROGRAM ARGUMENT...");
    read_claims(argv[1]);
    child = fork();
    if (child == 0) {
        if (ptrace(PTRACE_TRACEME, 0, NULL, NULL) != 0)
            _exit(126);
        dup2(STDERR_FILENO, STDOUT_FILENO);
        execv(argv[3], argv + 3);
        _exit(127);
    }
    if (child < 0 || waitpid(child, &status, 0) < 0 || !WIFSTOPPED(status))
        fail("the program cannot be started under a tracer");
    start(child, is_short(argv[3]));
    trace(child, bias(child, argv[2]));
    report();
    return wrong != 0;
}
