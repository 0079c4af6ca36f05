/*
 * The loaders' calls, made on areas that are full of code, and on a card of 2 MiB with little.
 */

#include "calls.h"

#include <string.h>
#include <thimmorel.h>

enum { HEADER = THIMMOREL_LOADER_HEADER_SIZE, FULL_CODE = THIMMOREL_LOADER_CODE_MAX };
enum { AREA = HEADER + FULL_CODE, LARGE_CARD = 2097152 };

static uint8_t full_card[AREA];
static uint8_t wrong_card[AREA];
static uint8_t full_internal[AREA];
static uint8_t small_card[LARGE_CARD];

/* A loader with so many bytes of code. What follows it is left. */
static void make_loader(uint8_t *b, uint32_t codelen)
{
	memset(b, 0, HEADER);
	memcpy(b, "TRZB", 4);
	put32(b + 4, HEADER);
	put32(b + 12, codelen);
	b[959] = 3;
	for (size_t i = 0; i < codelen; i++)
		b[HEADER + i] = (uint8_t)(i * 2654435761u >> 24);
	thimmorel_digest(b + HEADER, codelen, b + 32);
}

void make_loaders(void)
{
	make_loader(full_card, FULL_CODE);
	make_loader(wrong_card, FULL_CODE);
	wrong_card[63] ^= 1;
	make_loader(full_internal, FULL_CODE);
	make_loader(small_card, 4);
}

static const struct thimmorel_loader_inputs inputs = { 0, 2, 3, THIMMOREL_YES, THIMMOREL_YES };
static struct thimmorel_answer answer;
static struct thimmorel_image image;
static uint8_t digest[32];

void pass_over_loader(void)
{
	thimmorel_digest(full_internal + HEADER, FULL_CODE, digest);
}

void pass_over_both_loaders(void)
{
	thimmorel_digest(wrong_card + HEADER, FULL_CODE, digest);
	thimmorel_digest(full_internal + HEADER, FULL_CODE, digest);
}

void pass_over_large_card(void)
{
	thimmorel_digest(small_card, LARGE_CARD, digest);
}

void check_full_card(void)
{
	if (thimmorel_check_card(full_card, AREA, &inputs, &answer, &image) != 0)
		fail("the full card is refused");
}

void check_small_card(void)
{
	if (thimmorel_check_card(small_card, LARGE_CARD, &inputs, &answer, &image) != 0)
		fail("the small card is refused");
}

void check_full_internal(void)
{
	if (thimmorel_check_internal(full_internal, AREA, &inputs, &answer, &image) != 0)
		fail("the full internal area is refused");
}

void ask_loader_digest(void)
{
	if (thimmorel_loader_digest(full_card, AREA, &answer, digest) != 0)
		fail("the loader question is refused");
}

void choose_internal(void)
{
	struct thimmorel_loader loader;
	if (thimmorel_choose_loader(wrong_card, AREA, full_internal, AREA, &inputs, &answer, &loader)
	    != 0 || loader.area != THIMMOREL_AREA_INTERNAL)
		fail("the internal loader is not chosen");
}
