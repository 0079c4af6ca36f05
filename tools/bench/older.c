/*
 * The calls on the older model's images, made on the largest pair, in which the V2 image lies, and on
 * a small pair in a slot of 2 MiB.
 */

#include "calls.h"

#include <string.h>
#include <thimmorel.h>

enum { LEGACY = THIMMOREL_LEGACY_HEADER_SIZE, HEADER = THIMMOREL_V2_HEADER_SIZE, CHUNK = 131072 };
enum { FULL_CODE = THIMMOREL_V2_CODE_MAX, FULL_V2 = HEADER + FULL_CODE, SLOT = LEGACY + FULL_V2 };

static uint8_t full_pair[SLOT];
static uint8_t small_pair[SLOT];

/* A well-formed pair with so many bytes of code. The signatures are zeros. */
static void make_pair(uint8_t *b, uint32_t codelen)
{
	uint8_t *v2 = b + LEGACY;
	size_t at = 0, room = CHUNK - HEADER - LEGACY;

	memset(b, 255, SLOT);
	memset(b, 0, LEGACY + HEADER);
	memcpy(b, "TRZR", 4);
	put32(b + 4, HEADER + codelen);
	memcpy(b + THIMMOREL_LEGACY_INDEXES, "\1\2\3", 3);
	memcpy(v2, "TRZF", 4);
	put32(v2 + 4, HEADER);
	put32(v2 + 12, codelen);
	memcpy(v2 + THIMMOREL_V2_INDEXES, "\1\2\3", 3);
	for (size_t i = 0; i < codelen; i++)
		v2[HEADER + i] = (uint8_t)(i * 2654435761u >> 24);
	for (int k = 0; at < codelen; k++) {
		size_t n = codelen - at < room ? codelen - at : room;
		thimmorel_sha256(v2 + HEADER + at, n, v2 + 32 + 32 * k);
		at += n;
		room = CHUNK;
	}
}

void make_older(void)
{
	make_pair(full_pair, FULL_CODE);
	make_pair(small_pair, 4);
}

static const struct thimmorel_older_inputs inputs = {
	0, 5,
	{ THIMMOREL_YES, THIMMOREL_YES, THIMMOREL_YES },
	{ THIMMOREL_YES, THIMMOREL_YES, THIMMOREL_YES },
};
static struct thimmorel_answer answer;
static struct thimmorel_image image;
static uint8_t digest[32];

void sha256_over_code(void)
{
	thimmorel_sha256(full_pair + LEGACY + HEADER, FULL_CODE, digest);
}

void sha256_over_v2(void)
{
	thimmorel_sha256(full_pair + LEGACY, FULL_V2, digest);
}

void sha256_over_slot(void)
{
	thimmorel_sha256(small_pair, SLOT, digest);
}

void check_full_v2_file(void)
{
	if (thimmorel_check_v2_file(full_pair + LEGACY, FULL_V2, &inputs, &answer, &image) != 0)
		fail("the full V2 image is refused");
}

void check_full_v2_slot(void)
{
	if (thimmorel_check_v2_slot(full_pair + LEGACY, FULL_V2, &inputs, &answer, &image) != 0)
		fail("the full V2 slot is refused");
}

void check_full_pair_file(void)
{
	if (thimmorel_check_pair_file(full_pair, SLOT, &inputs, &answer, &image) != 0)
		fail("the full pair is refused");
}

void check_full_pair_slot(void)
{
	if (thimmorel_check_pair_slot(full_pair, SLOT, &inputs, &answer, &image) != 0)
		fail("the full pair in a slot is refused");
}

void check_small_pair_slot(void)
{
	if (thimmorel_check_pair_slot(small_pair, SLOT, &inputs, &answer, &image) != 0)
		fail("the small pair is refused");
}

void find_v2_code(void)
{
	struct thimmorel_span code;
	thimmorel_find_v2_code(full_pair + LEGACY, FULL_V2, 0, &code);
	if (code.start != HEADER || code.length != FULL_CODE)
		fail("the code of the V2 image is not where it should be");
}

void find_pair_code(void)
{
	struct thimmorel_span code;
	thimmorel_find_pair_code(full_pair, SLOT, 0, &code);
	if (code.start != LEGACY + HEADER || code.length != FULL_CODE)
		fail("the code of the pair is not where it should be");
}

void ask_v2_digest(void)
{
	if (thimmorel_v2_digest(full_pair + LEGACY, FULL_V2, &answer, digest) != 0)
		fail("the V2 question is refused");
}

void ask_pair_v2_digest(void)
{
	if (thimmorel_pair_v2_digest(full_pair, SLOT, &answer, digest) != 0)
		fail("the V2 question of the pair is refused");
}

void ask_pair_legacy_digest(void)
{
	if (thimmorel_pair_legacy_digest(full_pair, SLOT, &answer, digest) != 0)
		fail("the legacy question is refused");
}
