/*
 * Measures the deepest stack of each exported call, in bytes. It fails if a call takes more than it
 * may.
 */

#include "calls.h"

#include <stdint.h>
#include <stdio.h>
#include <stdlib.h>

enum { PAINTED = 65536, LIMIT = 2048 };

static size_t deepest;

/* How many bytes of painted stack a call wrote to. */
static __attribute__((noinline)) size_t stack_of(void (*work)(void))
{
	volatile uint8_t *low = (volatile uint8_t *)__builtin_frame_address(0) - PAINTED;
	size_t untouched = 0;
	for (size_t i = 0; i < PAINTED - 256; i++)
		low[i] = 0xa5;
	work();
	while (untouched < PAINTED && low[untouched] == 0xa5)
		untouched++;
	return PAINTED - untouched;
}

static void print(const char *call, void (*work)(void))
{
	size_t stack = stack_of(work);
	deepest = stack > deepest ? stack : deepest;
	printf("  %-24s %5zu\n", call, stack);
}

static void print_image(void)
{
	print("digest", pass_over_code);
	print("check_file", check_full_file);
	print("check_slot", check_small_slot);
	print("find_parts", find_parts);
	print("vendor_digest", ask_vendor_digest);
	print("firmware_digest", ask_firmware_digest);
	print("find_vendor_signature", find_vendor_signature);
	print("find_firmware_signature", find_firmware_signature);
	print("read_trust", read_trust);
	print("write_vendor", write_vendor);
	print("write_firmware", write_firmware);
}

static void print_loader(void)
{
	print("check_card", check_full_card);
	print("check_internal", check_full_internal);
	print("loader_digest", ask_loader_digest);
	print("choose_loader", choose_internal);
}

static void print_older(void)
{
	print("sha256", sha256_over_code);
	print("check_v2_file", check_full_v2_file);
	print("check_v2_slot", check_full_v2_slot);
	print("check_pair_file", check_full_pair_file);
	print("check_pair_slot", check_small_pair_slot);
	print("find_v2_code", find_v2_code);
	print("find_pair_code", find_pair_code);
	print("v2_digest", ask_v2_digest);
	print("pair_v2_digest", ask_pair_v2_digest);
	print("pair_legacy_digest", ask_pair_legacy_digest);
}

/* One install of each form. */
static void print_install(void)
{
	print("begin", begin_install);
	erase_once();
	print("erase", erase_once);
	erase_rest();
	fill_once();
	print("fill", fill_once);
	fill_rest();
	print("ask", ask_install);
	print("find_signatures", find_signatures);
	print("close", close_install);
	begin_install();
	plan_erase_once();
	print("plan_erase", plan_erase_once);
	erase_rest();
	plan_fill_once();
	print("plan_fill", plan_fill_once);
	plan_fill_rest();
	print("plan_close", plan_close_install);
	print("confirm", confirm_install);
}

int main(void)
{
	make_images();
	make_loaders();
	make_older();
	printf("deepest stack of each call, in bytes:\n");
	print_image();
	print_install();
	print_loader();
	print_older();
	printf("deepest of all: %zu, of at most %d\n", deepest, LIMIT);
	if (deepest > LIMIT)
		fail("a call takes too much stack");
	return EXIT_SUCCESS;
}
