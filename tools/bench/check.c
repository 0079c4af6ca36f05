/*
 * Times the checks, the writers, the choice of a loader and installs against a BLAKE2s pass or one
 * check, and the older model's checks against a SHA-256 pass, in one run. Prints ratios.
 */

#define _POSIX_C_SOURCE 200809L

#include "calls.h"

#include <stdio.h>
#include <stdlib.h>
#include <time.h>

enum { ROUNDS = 200, INSTALLS = 10 };

static double now(void)
{
	struct timespec time;
	clock_gettime(CLOCK_MONOTONIC, &time);
	return (double)time.tv_sec + (double)time.tv_nsec * 1e-9;
}

static double once(void (*work)(void))
{
	double start = now();
	work();
	return now() - start;
}

static double least(double one, double other)
{
	return one < other ? one : other;
}

static void print(const char *what, double ratio)
{
	printf("%-58s %6.3f\n", what, ratio);
}

/* The best of many rounds, the two in turn: a disturbance makes a round slower and never faster. */
static double ratio(void (*work)(void), void (*pass)(void))
{
	double best_work = once(work), best_pass = once(pass);
	for (int i = 0; i < ROUNDS; i++) {
		best_work = least(best_work, once(work));
		best_pass = least(best_pass, once(pass));
	}
	return best_work / best_pass;
}

/* The parts of an install in both forms, and the file check. */
struct times {
	double fill, close, plan_fill, plan_close, check;
};

static struct times time_installs(void)
{
	struct times t;
	begin_install();
	erase_rest();
	t.fill = once(fill_rest);
	t.close = once(close_install);
	begin_install();
	erase_rest();
	t.plan_fill = once(plan_fill_rest);
	t.plan_close = once(plan_close_install);
	confirm_install();
	t.check = once(check_full_file);
	return t;
}

/* The best of a few installs. */
static void print_installs(void)
{
	struct times best = time_installs();
	for (int i = 1; i < INSTALLS; i++) {
		struct times t = time_installs();
		best.fill = least(best.fill, t.fill);
		best.close = least(best.close, t.close);
		best.plan_fill = least(best.plan_fill, t.plan_fill);
		best.plan_close = least(best.plan_close, t.plan_close);
		best.check = least(best.check, t.check);
	}
	print("fill of 2 MiB by 4 bytes a call / the file check of it:", best.fill / best.check);
	print("the same by plan_fill, and stores / the file check:", best.plan_fill / best.check);
	print("close of a full file / the file check of it:", best.close / best.check);
	print("plan_close of a full file / the file check of it:", best.plan_close / best.check);
}

static void print_loaders(void)
{
	print("internal check of a full area / a pass over its code:",
	      ratio(check_full_internal, pass_over_loader));
	print("card check of 1,028 bytes in 2 MiB / a pass over 2 MiB:",
	      ratio(check_small_card, pass_over_large_card));
	print("choice, wrong hash on the card / a pass over both codes:",
	      ratio(choose_internal, pass_over_both_loaders));
}

static void print_older(void)
{
	print("V2 file check of the largest image / SHA-256 of its code:",
	      ratio(check_full_v2_file, sha256_over_code));
	print("pair slot check of the largest image / the same:",
	      ratio(check_full_pair_slot, sha256_over_code));
	print("pair slot check of 1,284 bytes in 2 MiB / SHA-256 of it:",
	      ratio(check_small_pair_slot, sha256_over_slot));
	print("legacy digest of the largest pair / SHA-256 of its bytes:",
	      ratio(ask_pair_legacy_digest, sha256_over_v2));
}

int main(void)
{
	make_images();
	make_loaders();
	make_older();
	print("file check of a full image / a pass over its code:",
	      ratio(check_full_file, pass_over_code));
	print("slot check of a full image / a pass over its code:",
	      ratio(check_full_slot, pass_over_code));
	print("slot check of 1,540 bytes in 2 MiB / a pass over 2 MiB:",
	      ratio(check_small_slot, pass_over_slot));
	print("firmware header of 2 MiB of code / a pass over it:",
	      ratio(write_firmware, pass_over_code));
	print("vendor header of 65,536 bytes / a pass over it:",
	      ratio(write_vendor, pass_over_header));
	print_loaders();
	print_older();
	print_installs();
	return EXIT_SUCCESS;
}
