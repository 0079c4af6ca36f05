/*
 * The exported calls, made on images of 2 MiB and 1,540 bytes.
 */

#include "calls.h"

#include <stdio.h>
#include <stdlib.h>
#include <string.h>
#include <thimmorel.h>

enum { SLOT = THIMMOREL_SLOT_MAX, PAGE = THIMMOREL_PAGE_SIZE, CHUNK = 131072 };
enum { V = 512, HEADER = THIMMOREL_FIRMWARE_HEADER_SIZE, FULL_CODE = SLOT - HEADER - V };
enum { LONGEST_V = THIMMOREL_VENDOR_HEADER_MAX, LONGEST_PICTURE = LONGEST_V - 65 - 100 };

static uint8_t full[SLOT];
static uint8_t small[SLOT];

void fail(const char *what)
{
	fprintf(stderr, "bench: %s\n", what);
	exit(EXIT_FAILURE);
}

void put32(uint8_t *at, uint32_t x)
{
	for (int i = 0; i < 4; i++)
		at[i] = (uint8_t)(x >> (8 * i));
}

/* A well-formed image with so many bytes of code, and erased bytes behind it. */
static void make_image(uint8_t *b, uint32_t codelen)
{
	uint8_t *f = b + V;
	size_t at = 0, room = CHUNK - HEADER - V;

	memset(b, 255, SLOT);
	memset(b, 0, V + HEADER);
	memcpy(b, "TRZV", 4);
	put32(b + 4, V);
	b[14] = 1;
	b[15] = 2;
	b[V - 65] = 3;
	memcpy(f, "TRZF", 4);
	put32(f + 4, HEADER);
	put32(f + 12, codelen);
	f[959] = 1;
	for (size_t i = 0; i < codelen; i++)
		f[HEADER + i] = (uint8_t)(i * 2654435761u >> 24);
	for (int k = 0; at < codelen; k++) {
		size_t n = codelen - at < room ? codelen - at : room;
		thimmorel_digest(f + HEADER + at, n, f + 32 + 32 * k);
		at += n;
		room = CHUNK;
	}
}

void make_images(void)
{
	make_image(full, FULL_CODE);
	make_image(small, 4);
}

/* The calls on an image. */

static const struct thimmorel_inputs inputs = { 0, 2, 3, THIMMOREL_YES, THIMMOREL_YES };
static struct thimmorel_answer answer;
static struct thimmorel_image image;
static uint8_t digest[32];

void pass_over_code(void)
{
	thimmorel_digest(full + V + HEADER, FULL_CODE, digest);
}

void pass_over_slot(void)
{
	thimmorel_digest(small, SLOT, digest);
}

void check_full_file(void)
{
	if (thimmorel_check_file(full, SLOT, &inputs, &answer, &image) != 0)
		fail("the full image is refused");
}

void check_full_slot(void)
{
	if (thimmorel_check_slot(full, SLOT, &inputs, &answer, &image) != 0)
		fail("the full slot is refused");
}

void check_small_slot(void)
{
	if (thimmorel_check_slot(small, SLOT, &inputs, &answer, &image) != 0)
		fail("the small image is refused");
}

void find_parts(void)
{
	struct thimmorel_parts parts;
	thimmorel_find_parts(full, SLOT, 0, &parts);
	if (parts.code.start + parts.code.length != SLOT)
		fail("the code is not where it should be");
}

void ask_vendor_digest(void)
{
	if (thimmorel_vendor_digest(full, SLOT, &answer, digest) != 0)
		fail("the vendor question is refused");
}

void ask_firmware_digest(void)
{
	if (thimmorel_firmware_digest(full, SLOT, &answer, digest) != 0)
		fail("the firmware question is refused");
}

void find_vendor_signature(void)
{
	struct thimmorel_signature signature;
	thimmorel_find_vendor_signature(full, SLOT, &signature);
	if (signature.sig.start != V - 64)
		fail("the vendor signature is not where it should be");
}

void find_firmware_signature(void)
{
	struct thimmorel_signature signature;
	thimmorel_find_firmware_signature(full, SLOT, &signature);
	if (signature.sig.start != V + HEADER - 64)
		fail("the firmware signature is not where it should be");
}

void read_trust(void)
{
	struct thimmorel_trust trust;
	thimmorel_read_trust(full, SLOT, &trust);
	if (trust.seconds != 15)
		fail("the trust reading is not as it should be");
}

/* The writers. */

static const uint8_t sig[THIMMOREL_SIG_SIZE];
static uint8_t header[LONGEST_V];

void write_firmware(void)
{
	static const struct thimmorel_firmware_numbers numbers = { V, 0, 1, 1, 1 };
	uint32_t written;
	if (thimmorel_write_firmware(&numbers, full + V + HEADER, FULL_CODE, sig, header,
	                             sizeof header, &written) != 0)
		fail("the firmware header is refused");
}

/* Two keys and no string: the picture starts at 100 and fills the longest header. */
void write_vendor(void)
{
	static const struct thimmorel_vendor_numbers numbers = { 0, 1, 0, 1, 2, 0, 3 };
	static const uint8_t keys[2 * THIMMOREL_KEY_SIZE];
	uint32_t written;
	if (thimmorel_write_vendor(&numbers, keys, sizeof keys, NULL, 0, full, LONGEST_PICTURE, sig,
	                           header, sizeof header, &written) != 0)
		fail("the vendor header is refused");
}

void pass_over_header(void)
{
	thimmorel_digest(header, LONGEST_V, digest);
}

/* An install of the full image: its record and slot, and the calls in order. */

static struct thimmorel_record record;
static struct thimmorel_operation operation;
static uint8_t slot[SLOT];
static size_t given;

void begin_install(void)
{
	given = 0;
	if (thimmorel_begin(slot, SLOT, SLOT, &record) != 0)
		fail("begin is refused");
}

void erase_once(void)
{
	if (thimmorel_erase(&record, slot, SLOT) != 0)
		fail("erase is refused");
}

void plan_erase_once(void)
{
	if (thimmorel_plan_erase(&record, slot, SLOT, &operation) != 0)
		fail("plan_erase is refused");
	if (operation.kind == THIMMOREL_OPERATION_STORE_WORD)
		memset(slot + operation.offset, 0, 4);
	else
		memset(slot + operation.offset, 255, PAGE);
}

void erase_rest(void)
{
	while (record.pages_erased < SLOT / PAGE)
		erase_once();
}

void fill_once(void)
{
	uint32_t taken;
	if (thimmorel_fill(&record, full + given, 4, slot, SLOT, &taken) != 0 || taken != 4)
		fail("fill is refused");
	given += 4;
}

void plan_fill_once(void)
{
	uint32_t taken;
	if (thimmorel_plan_fill(&record, full + given, 4, slot, SLOT, &taken, &operation) != 0
	    || taken != 4)
		fail("plan_fill is refused");
	if (operation.kind == THIMMOREL_OPERATION_STORE_WORD)
		put32(slot + operation.offset, operation.word);
	given += 4;
}

void fill_rest(void)
{
	while (given < SLOT)
		fill_once();
}

void plan_fill_rest(void)
{
	while (given < SLOT)
		plan_fill_once();
}

void ask_install(void)
{
	struct thimmorel_answers answers;
	struct thimmorel_digests digests;
	if (thimmorel_ask(&record, slot, SLOT, &answers, &digests) != 0)
		fail("ask is refused");
}

void find_signatures(void)
{
	struct thimmorel_signatures signatures;
	thimmorel_find_signatures(&record, slot, SLOT, &signatures);
	if (signatures.firmware.sig.start != V + HEADER - 64)
		fail("the signatures of the install are not where they should be");
}

void close_install(void)
{
	if (thimmorel_close(&record, slot, SLOT, &inputs, &answer) != 0)
		fail("close is refused");
}

void plan_close_install(void)
{
	if (thimmorel_plan_close(&record, slot, SLOT, &inputs, &answer, &operation) != 0)
		fail("plan_close is refused");
	put32(slot + operation.offset, operation.word);
}

void confirm_install(void)
{
	if (thimmorel_confirm(&record, slot, SLOT) != 0)
		fail("confirm is refused");
}
