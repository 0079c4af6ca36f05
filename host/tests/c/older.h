/*
 * What the programs about the older model share: an image of 4 bytes of code, built by hand, with a
 * V2 header by itself and in the pair.
 */

#ifndef OLDER_H
#define OLDER_H

#include "expect.h"

enum {
	LEGACY = THIMMOREL_LEGACY_HEADER_SIZE,
	HEADER = THIMMOREL_V2_HEADER_SIZE,
	CODE = 4,
	V2_IMAGE = HEADER + CODE,
	PAIR = LEGACY + V2_IMAGE,
	SLOT = 4096
};

/* Each form has an image at the start of a slot. */
static uint8_t v2[SLOT], pair[SLOT];

static const uint8_t code[CODE] = { 'c', 'o', 'd', 'e' };

/* The firmware expires after 100. */
static inline void write_v2(uint8_t *at)
{
	static const uint8_t head[24] = { 'T', 'R', 'Z', 'F', 0, 4, 0, 0, 100, 0, 0, 0, CODE, 0, 0, 0,
		1, 8, 0, 5, 1, 7, 0, 0 };
	static const uint8_t indexes[3] = { 1, 5, 4 };

	memset(at, 0, HEADER);
	memcpy(at, head, sizeof head);
	thimmorel_sha256(code, CODE, at + 32);
	memset(at + THIMMOREL_V2_SIGNATURES, 9, 3 * THIMMOREL_SIG_SIZE);
	memcpy(at + THIMMOREL_V2_INDEXES, indexes, sizeof indexes);
	memcpy(at + HEADER, code, CODE);
}

static inline void write_images(void)
{
	static const uint8_t head[8] = { 'T', 'R', 'Z', 'R', CODE, 4, 0, 0 };
	static const uint8_t indexes[3] = { 3, 1, 2 };

	memset(v2, 255, SLOT);
	write_v2(v2);
	memset(pair, 255, SLOT);
	memset(pair, 0, LEGACY);
	memcpy(pair, head, sizeof head);
	memcpy(pair + THIMMOREL_LEGACY_INDEXES, indexes, sizeof indexes);
	memset(pair + THIMMOREL_LEGACY_SIGNATURES, 7, 3 * THIMMOREL_SIG_SIZE);
	write_v2(pair + LEGACY);
}

#endif
