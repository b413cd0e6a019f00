/* Which instructions of the library run. It is compiled without counters, so each instruction begins with a breakpoint until it is
 * first reached; the fuzzer sees that as a count. FUZZ_REACH names a file of the instructions' addresses, ascending, one a line. */
#define _GNU_SOURCE
#include <signal.h>
#include <stdint.h>
#include <stdio.h>
#include <stdlib.h>
#include <sys/mman.h>
#include <ucontext.h>

enum { MOST = 1 << 14, PAGE = 4096, BREAKPOINT = 0xcc };

static uintptr_t addresses[MOST];
static uint8_t first_bytes[MOST];
static int count, reached;
__attribute__((used, section("__libfuzzer_extra_counters"))) static uint8_t counts[MOST];

static int compare(const void *a, const void *b)
{
    uintptr_t x = *(const uintptr_t *)a, y = *(const uintptr_t *)b;
    return (x > y) - (x < y);
}

/* Puts the instruction's byte back and goes on with it. */
static void on_breakpoint(int signal, siginfo_t *info, void *context)
{
    greg_t *next = &((ucontext_t *)context)->uc_mcontext.gregs[REG_RIP];
    uintptr_t address = (uintptr_t)*next - 1;
    uintptr_t *found = bsearch(&address, addresses, (size_t)count, sizeof address, compare);
    (void)signal, (void)info;
    if (found == NULL) abort();
    *(uint8_t *)address = first_bytes[found - addresses];
    counts[found - addresses] = 1;
    reached++;
    *next = (greg_t)address;
}

static void report(void)
{
    fprintf(stderr, "fuzz: %d of the library's %d instructions reached\n", reached, count);
}

static void arm(void)
{
    uintptr_t from = addresses[0] / PAGE * PAGE, to = addresses[count - 1] + 1;
    if (mprotect((void *)from, to - from, PROT_READ | PROT_WRITE | PROT_EXEC) != 0) abort();
    for (int i = 0; i < count; i++) {
        first_bytes[i] = *(uint8_t *)addresses[i];
        *(uint8_t *)addresses[i] = BREAKPOINT;
    }
}

int LLVMFuzzerInitialize(int *argc, char ***argv)
{
    struct sigaction action = {.sa_sigaction = on_breakpoint, .sa_flags = SA_SIGINFO};
    const char *name = getenv("FUZZ_REACH");
    FILE *file = name == NULL ? NULL : fopen(name, "r");
    (void)argc, (void)argv;
    if (file == NULL) return 0;
    for (unsigned long address; count < MOST && fscanf(file, "%lx", &address) == 1;) addresses[count++] = address;
    fclose(file);
    if (count == 0 || sigaction(SIGTRAP, &action, NULL) != 0) return 0;
    arm();
    atexit(report);
    return 0;
}
