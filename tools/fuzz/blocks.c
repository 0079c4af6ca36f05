/*
 * Coverage of the archive's machine code, for libFuzzer. A breakpoint stands at the start of each
 * basic block of the archive. The first time that one is met, it is taken away and the block is
 * told to libFuzzer: from then on the archive's own instruction stands there. It assumes x86-64
 * Linux, a program at a fixed address, and the blocks' addresses in a file beside the program.
 */

#define _GNU_SOURCE
#include <signal.h>
#include <stdint.h>
#include <stdio.h>
#include <stdlib.h>
#include <sys/mman.h>
#include <ucontext.h>

#define ROOM 32768
#define PAGE 4096
#define BREAKPOINT 0xcc

void TARGET(const uint8_t *bytes, size_t length);

/* One counter for each byte of the archive's code. libFuzzer reads and clears this section. */
__attribute__((section("__libfuzzer_extra_counters"))) static volatile uint8_t met[ROOM];

/* The byte that a breakpoint stands for, and whether one stands there. */
static uint8_t original[ROOM];
static uint8_t stands[ROOM];

/* The page that the archive's code begins in. */
static uint8_t *code;

static unsigned blocks, blocks_met;

static void fail(const char *what)
{
	fprintf(stderr, "blocks: %s\n", what);
	_Exit(2);
}

static void on_breakpoint(int signal, siginfo_t *info, void *context)
{
	greg_t *next = &((ucontext_t *)context)->uc_mcontext.gregs[REG_RIP];
	size_t at = (size_t)(*next - 1 - (greg_t)code);
	(void)signal;
	(void)info;
	if (at >= ROOM || !stands[at])
		fail("a breakpoint that is not ours");
	code[at] = original[at];
	stands[at] = 0;
	met[at] = 1;
	blocks_met++;
	*next -= 1;
}

static void set_breakpoint(uintptr_t address)
{
	void *page = (void *)(address / PAGE * PAGE);
	size_t at;
	if (code == NULL)
		code = page;
	at = address - (uintptr_t)code;
	if (at >= ROOM)
		fail("the archive's code is too large");
	if (mprotect(page, PAGE, PROT_READ | PROT_WRITE | PROT_EXEC))
		fail("the archive's code cannot be made writable");
	original[at] = code[at];
	stands[at] = 1;
	code[at] = BREAKPOINT;
	blocks++;
}

/* The addresses rise. */
static void set_breakpoints(FILE *addresses)
{
	uintptr_t address;
	while (fscanf(addresses, "%lx", &address) == 1)
		set_breakpoint(address);
}

static void tell(void)
{
	fprintf(stderr, "blocks: %u of %u\n", blocks_met, blocks);
}

int LLVMFuzzerInitialize(int *argc, char ***argv)
{
	struct sigaction action = { .sa_sigaction = on_breakpoint, .sa_flags = SA_SIGINFO };
	char path[4096];
	FILE *addresses;
	(void)argc;
	snprintf(path, sizeof path, "%s.blocks", (*argv)[0]);
	addresses = fopen(path, "r");
	if (addresses == NULL)
		fail("the file of addresses is missing");
	if (sigaction(SIGTRAP, &action, NULL))
		fail("no handler for breakpoints");
	set_breakpoints(addresses);
	fclose(addresses);
	if (blocks == 0)
		fail("the file of addresses is empty");
	atexit(tell);
	return 0;
}

int LLVMFuzzerTestOneInput(const uint8_t *bytes, size_t length)
{
	TARGET(bytes, length);
	return 0;
}
