/*
 * The image of the programs, 1,540 bytes as the writers make it; and what the writers refuse.
 */

#ifndef WRITERS_H
#define WRITERS_H

#include "expect.h"

enum { V = 512, HEADER = 1024, CODE = 4, FILE_LENGTH = V + HEADER + CODE };

/* The vendor header expires after 100. Two of three keys sign it, and one of two the firmware
   header. The vendor's trust waits 1 + 8 seconds. */
static const struct thimmorel_vendor_numbers vendor_numbers = { 100, 1, 2, 1, 2, 0xfff6, 0x03 };
static const struct thimmorel_firmware_numbers firmware_numbers = { V, 0,
	THIMMOREL_FIRMWARE_VERSION(2, 3, 4, 5), THIMMOREL_FIRMWARE_VERSION(2, 0, 0, 0), 0x01 };

static const uint8_t keys[64] = { 7, 7 }, sig[64] = { 9, 9 };
static const uint8_t string[3] = { 'A', 'n', 'n' }, code[CODE] = { 'c', 'o', 'd', 'e' };

static uint8_t file[FILE_LENGTH];

static inline void write_image(void)
{
	uint32_t written;

	EXPECT(thimmorel_write_vendor(&vendor_numbers, keys, sizeof keys, string, sizeof string, NULL,
		0, sig, file, sizeof file, &written) == THIMMOREL_OK);
	EXPECT(written == V);
	EXPECT(thimmorel_write_firmware(&firmware_numbers, code, sizeof code, sig, file + V,
		sizeof file - V, &written) == THIMMOREL_OK);
	EXPECT(written == HEADER);
	memcpy(file + V + HEADER, code, CODE);
}

/* As many bytes as any call here takes, and an output. */
static uint8_t many[THIMMOREL_SLOT_MAX];
static uint8_t out[V + HEADER];

/* A refused writer leaves its outputs as they were. */
static inline void expect_vendor(struct thimmorel_vendor_numbers numbers, uint64_t keys_length,
	uint64_t string_length, uint64_t picture_length, uint64_t out_length, uint32_t number)
{
	uint32_t written;

	MARK(written);
	EXPECT(thimmorel_write_vendor(&numbers, many, keys_length, many + 512, string_length,
		many + 1024, picture_length, sig, out, out_length, &written) == number);
	EXPECT(IS_UNCHANGED(out) && IS_UNCHANGED(written));
}

/* Most calls also have the faults that are looked for later, so that the order shows. */
static inline void expect_vendor_refusals(void)
{
	static const struct thimmorel_vendor_numbers too_large[] = {
		{ 100, 256, 2, 0, 2, 0, 3 },
		{ 100, 1, 256, 0, 2, 0, 3 },
		{ 100, 1, 2, 0, 2, 65536, 3 },
		{ 100, 1, 2, 0, 2, 0, 256 },
	};
	static const struct thimmorel_vendor_numbers key_numbers[] = {
		{ 100, 1, 2, 0, 2, 0, 3 },
		{ 100, 1, 2, 3, 2, 0, 3 },
		{ 100, 1, 2, 1, 9, 0, 3 },
		{ 100, 1, 2, 257, 258, 0, 3 },
	};
	const uint64_t longest = THIMMOREL_VENDOR_HEADER_MAX - 65 - 100;
	size_t i;

	for (i = 0; i < 4; i++) {
		expect_vendor(too_large[i], 63, 256, longest + 1, 0, THIMMOREL_ERROR_FIELD_RANGE);
		expect_vendor(key_numbers[i], 63, 256, longest + 1, 0, THIMMOREL_ERROR_VENDOR_KEYS);
	}
	expect_vendor(vendor_numbers, 63, 3, longest + 1, 0, THIMMOREL_ERROR_FIELD_LENGTH);
	expect_vendor(vendor_numbers, 64, 256, longest + 1, 0, THIMMOREL_ERROR_FIELD_LENGTH);
	expect_vendor(vendor_numbers, 64, 3, longest + 1, 0, THIMMOREL_ERROR_VENDOR_LENGTH);
	expect_vendor(vendor_numbers, 64, 3, longest, sizeof out, THIMMOREL_ERROR_OUTPUT_LENGTH);
	expect_vendor(vendor_numbers, 64, 3, 0, V - 1, THIMMOREL_ERROR_OUTPUT_LENGTH);
}

static inline void expect_firmware(uint32_t vendor_length, uint32_t sigmask, uint64_t code_length,
	uint64_t out_length, uint32_t number)
{
	struct thimmorel_firmware_numbers numbers = firmware_numbers;
	uint32_t written;

	MARK(written);
	numbers.vendor_length = vendor_length;
	numbers.sigmask = sigmask;
	EXPECT(thimmorel_write_firmware(&numbers, many, code_length, sig, out, out_length, &written)
		== number);
	EXPECT(IS_UNCHANGED(out) && IS_UNCHANGED(written));
}

static inline void expect_firmware_refusals(void)
{
	const uint64_t longest = THIMMOREL_SLOT_MAX - HEADER - V;

	expect_firmware(0, 256, 0, 0, THIMMOREL_ERROR_FIELD_RANGE);
	expect_firmware(0, 1, 0, 0, THIMMOREL_ERROR_VENDOR_LENGTH);
	expect_firmware(V + 1, 1, 0, 0, THIMMOREL_ERROR_VENDOR_LENGTH);
	expect_firmware(THIMMOREL_VENDOR_HEADER_MAX + 512, 1, 0, 0, THIMMOREL_ERROR_VENDOR_LENGTH);
	expect_firmware(V, 1, 0, 0, THIMMOREL_ERROR_CODE_LENGTH);
	expect_firmware(V, 1, 5, 0, THIMMOREL_ERROR_CODE_LENGTH);
	expect_firmware(V, 1, longest + 4, 0, THIMMOREL_ERROR_CODE_LENGTH);
	expect_firmware(V, 1, longest, HEADER - 1, THIMMOREL_ERROR_OUTPUT_LENGTH);
}

/* A header is at the start of the output, and the bytes past it are unchanged. The picture area,
   which starts at 100, gives the same vendor header again. */
static inline void expect_written(void)
{
	uint32_t written;

	EXPECT(thimmorel_write_vendor(&vendor_numbers, keys, sizeof keys, string, sizeof string,
		file + 100, V - 65 - 100, sig, out, sizeof out, &written) == THIMMOREL_OK);
	EXPECT(written == V && memcmp(out, file, V) == 0);
	EXPECT(is_all(out + V, sizeof out - V, MARKED));
	MARK(out);
	EXPECT(thimmorel_write_firmware(&firmware_numbers, code, sizeof code, sig, out, sizeof out,
		&written) == THIMMOREL_OK);
	EXPECT(written == HEADER && memcmp(out, file + V, HEADER) == 0);
	EXPECT(is_all(out + HEADER, sizeof out - HEADER, MARKED));
}

static inline void expect_writers(void)
{
	MARK(out);
	expect_vendor_refusals();
	expect_firmware_refusals();
	expect_written();
}

#endif
