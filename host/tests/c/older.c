/*
 * The older model's checks from C: of a V2 header by itself and of the pair, as a file and in a slot;
 * and where the code is. The exit status is 0 if each call answers as it should. It is also valid
 * C++.
 */

#include "older.h"

enum form { FORM_V2, FORM_PAIR };

/* The sheet has five keys. */
static const struct thimmorel_older_inputs good = { 100, 5, { 1, 1, 1 }, { 1, 1, 1 } };

typedef uint32_t check_call(const uint8_t *bytes, uint64_t length,
	const struct thimmorel_older_inputs *inputs, struct thimmorel_answer *answer,
	struct thimmorel_image *image);

/* The code after a check that returned the number. A refused image has none. */
static void expect_code(enum form form, const uint8_t *bytes, uint64_t length, uint32_t number)
{
	struct thimmorel_span span;

	MARK(span);
	if (form == FORM_V2)
		thimmorel_find_v2_code(bytes, length, number, &span);
	else
		thimmorel_find_pair_code(bytes, length, number, &span);
	if (number != THIMMOREL_OK)
		EXPECT(IS_ZERO(span));
	else
		EXPECT(span.start == (form == FORM_V2 ? HEADER : LEGACY + HEADER) && span.length == CODE);
}

/* The answer is always written, and the image only on success. */
static void expect_check(enum form form, check_call *check, uint64_t length,
	struct thimmorel_older_inputs inputs, uint32_t number, uint32_t part, uint32_t chunk)
{
	const uint8_t *bytes = form == FORM_V2 ? v2 : pair;
	struct thimmorel_answer answer;
	struct thimmorel_image image;

	MARK(answer);
	MARK(image);
	EXPECT(check(bytes, length, &inputs, &answer, &image) == number);
	EXPECT(tells(&answer, number, part, chunk));
	if (number != THIMMOREL_OK) {
		EXPECT(IS_UNCHANGED(image));
	} else {
		EXPECT(image.vendor_length == 0 && image.code_length == CODE);
		EXPECT(image.version == 0x05000801 && image.fix_version == 0x00000701);
	}
	expect_code(form, bytes, length, number);
}

/* The same answer for the image as a file and in a slot. */
static void expect_v2(struct thimmorel_older_inputs inputs, uint32_t number, uint32_t part,
	uint32_t chunk)
{
	expect_check(FORM_V2, thimmorel_check_v2_file, V2_IMAGE, inputs, number, part, chunk);
	expect_check(FORM_V2, thimmorel_check_v2_slot, SLOT, inputs, number, part, chunk);
}

static void expect_pair(struct thimmorel_older_inputs inputs, uint32_t number, uint32_t part,
	uint32_t chunk)
{
	expect_check(FORM_PAIR, thimmorel_check_pair_file, PAIR, inputs, number, part, chunk);
	expect_check(FORM_PAIR, thimmorel_check_pair_slot, SLOT, inputs, number, part, chunk);
}

/* A byte changed, and the answer, in the order of the steps. */
struct change {
	uint32_t at;
	uint8_t byte;
	uint32_t number, part, chunk;
};

/* Of the legacy header. */
static const struct change legacy_changes[] = {
	{ 3, 'F', THIMMOREL_ERROR_VENDOR_MAGIC, THIMMOREL_PART_VENDOR_HEADER, 0 },
	{ 4, 0, THIMMOREL_ERROR_CODE_LENGTH, THIMMOREL_PART_VENDOR_HEADER, 0 },
	{ 4, 6, THIMMOREL_ERROR_CODE_LENGTH, THIMMOREL_PART_VENDOR_HEADER, 0 },
	{ 6, 0x20, THIMMOREL_ERROR_CODE_LENGTH, THIMMOREL_PART_VENDOR_HEADER, 0 },
	{ 11, 1, THIMMOREL_ERROR_NOT_ZERO, THIMMOREL_PART_VENDOR_HEADER, 0 },
	{ 63, 1, THIMMOREL_ERROR_NOT_ZERO, THIMMOREL_PART_VENDOR_HEADER, 0 },
	{ 8, 0, THIMMOREL_ERROR_SIGMASK, THIMMOREL_PART_VENDOR_HEADER, 0 },
	{ 9, 6, THIMMOREL_ERROR_SIGMASK, THIMMOREL_PART_VENDOR_HEADER, 0 },
	{ 9, 255, THIMMOREL_ERROR_SIGMASK, THIMMOREL_PART_VENDOR_HEADER, 0 },
	{ 8, 1, THIMMOREL_ERROR_SIGMASK, THIMMOREL_PART_VENDOR_HEADER, 0 },
	{ 8, 2, THIMMOREL_ERROR_SIGMASK, THIMMOREL_PART_VENDOR_HEADER, 0 },
	{ 9, 2, THIMMOREL_ERROR_SIGMASK, THIMMOREL_PART_VENDOR_HEADER, 0 },
	{ 8, 5, THIMMOREL_OK, THIMMOREL_PART_NONE, 0 },
	{ 64, 1, THIMMOREL_OK, THIMMOREL_PART_NONE, 0 },
	{ 255, 1, THIMMOREL_OK, THIMMOREL_PART_NONE, 0 },
};

/* Of the V2 header and the code, in both forms. */
static const struct change v2_changes[] = {
	{ 3, 'R', THIMMOREL_ERROR_FIRMWARE_MAGIC, THIMMOREL_PART_FIRMWARE_HEADER, 0 },
	{ 4, 1, THIMMOREL_ERROR_FIRMWARE_LENGTH, THIMMOREL_PART_FIRMWARE_HEADER, 0 },
	{ 12, 0, THIMMOREL_ERROR_CODE_LENGTH, THIMMOREL_PART_FIRMWARE_HEADER, 0 },
	{ 12, 6, THIMMOREL_ERROR_CODE_LENGTH, THIMMOREL_PART_FIRMWARE_HEADER, 0 },
	{ 14, 0x20, THIMMOREL_ERROR_CODE_LENGTH, THIMMOREL_PART_FIRMWARE_HEADER, 0 },
	{ 24, 1, THIMMOREL_ERROR_NOT_ZERO, THIMMOREL_PART_FIRMWARE_HEADER, 0 },
	{ 31, 1, THIMMOREL_ERROR_NOT_ZERO, THIMMOREL_PART_FIRMWARE_HEADER, 0 },
	{ 739, 1, THIMMOREL_ERROR_NOT_ZERO, THIMMOREL_PART_FIRMWARE_HEADER, 0 },
	{ 959, 1, THIMMOREL_ERROR_NOT_ZERO, THIMMOREL_PART_FIRMWARE_HEADER, 0 },
	{ 1023, 1, THIMMOREL_ERROR_NOT_ZERO, THIMMOREL_PART_FIRMWARE_HEADER, 0 },
	{ 8, 99, THIMMOREL_ERROR_EXPIRED, THIMMOREL_PART_FIRMWARE_HEADER, 0 },
	{ 736, 0, THIMMOREL_ERROR_SIGMASK, THIMMOREL_PART_FIRMWARE_HEADER, 0 },
	{ 737, 6, THIMMOREL_ERROR_SIGMASK, THIMMOREL_PART_FIRMWARE_HEADER, 0 },
	{ 736, 5, THIMMOREL_ERROR_SIGMASK, THIMMOREL_PART_FIRMWARE_HEADER, 0 },
	{ 736, 4, THIMMOREL_ERROR_SIGMASK, THIMMOREL_PART_FIRMWARE_HEADER, 0 },
	{ 737, 4, THIMMOREL_ERROR_SIGMASK, THIMMOREL_PART_FIRMWARE_HEADER, 0 },
	{ HEADER, 'm', THIMMOREL_ERROR_CHUNK_HASH, THIMMOREL_PART_CODE, 1 },
	{ 63, 0xff, THIMMOREL_ERROR_CHUNK_HASH, THIMMOREL_PART_CODE, 1 },
	{ 64, 1, THIMMOREL_ERROR_UNUSED_HASH, THIMMOREL_PART_CODE, 2 },
	{ 543, 1, THIMMOREL_ERROR_UNUSED_HASH, THIMMOREL_PART_CODE, 16 },
	{ 8, 0, THIMMOREL_OK, THIMMOREL_PART_NONE, 0 },
	{ 736, 2, THIMMOREL_OK, THIMMOREL_PART_NONE, 0 },
	{ 544, 1, THIMMOREL_OK, THIMMOREL_PART_NONE, 0 },
	{ 735, 1, THIMMOREL_OK, THIMMOREL_PART_NONE, 0 },
};

static void expect_changes(void)
{
	const struct change *change;
	size_t i;

	for (i = 0; i < sizeof legacy_changes / sizeof legacy_changes[0]; i++) {
		change = &legacy_changes[i];
		pair[change->at] = change->byte;
		expect_pair(good, change->number, change->part, change->chunk);
		write_images();
	}
	for (i = 0; i < sizeof v2_changes / sizeof v2_changes[0]; i++) {
		change = &v2_changes[i];
		v2[change->at] = pair[LEGACY + change->at] = change->byte;
		expect_v2(good, change->number, change->part, change->chunk);
		expect_pair(good, change->number, change->part, change->chunk);
		write_images();
	}
}

/* The code lengths of both headers, of which most of the code is not there. */
static void put_code_length(uint32_t legacy, uint32_t codelen)
{
	uint32_t i;

	for (i = 0; i < 4; i++) {
		pair[4 + i] = (uint8_t)(legacy >> 8 * i);
		v2[12 + i] = pair[LEGACY + 12 + i] = (uint8_t)(codelen >> 8 * i);
	}
}

static void expect_code_lengths(void)
{
	const uint32_t most = THIMMOREL_V2_CODE_MAX;

	put_code_length(HEADER + most, most);
	expect_v2(good, THIMMOREL_ERROR_TOO_SHORT, THIMMOREL_PART_CODE, 0);
	expect_pair(good, THIMMOREL_ERROR_TOO_SHORT, THIMMOREL_PART_CODE, 0);
	put_code_length(HEADER + most + 4, most + 4);
	expect_v2(good, THIMMOREL_ERROR_CODE_LENGTH, THIMMOREL_PART_FIRMWARE_HEADER, 0);
	expect_pair(good, THIMMOREL_ERROR_CODE_LENGTH, THIMMOREL_PART_VENDOR_HEADER, 0);
	/* Good by themselves, but they do not agree. */
	put_code_length(HEADER + CODE + 4, CODE);
	expect_v2(good, THIMMOREL_OK, 0, 0);
	expect_pair(good, THIMMOREL_ERROR_CODE_LENGTH, THIMMOREL_PART_FIRMWARE_HEADER, 0);
	put_code_length(HEADER + CODE, CODE + 4);
	expect_pair(good, THIMMOREL_ERROR_CODE_LENGTH, THIMMOREL_PART_FIRMWARE_HEADER, 0);
	write_images();
}

static void expect_lengths(void)
{
	check_call *v2_file = thimmorel_check_v2_file, *pair_file = thimmorel_check_pair_file;

	expect_check(FORM_V2, v2_file, 3, good, THIMMOREL_ERROR_FIRMWARE_MAGIC, 2, 0);
	expect_check(FORM_V2, v2_file, 4, good, THIMMOREL_ERROR_TOO_SHORT, 2, 0);
	expect_check(FORM_V2, v2_file, HEADER - 1, good, THIMMOREL_ERROR_TOO_SHORT, 2, 0);
	expect_check(FORM_V2, v2_file, HEADER, good, THIMMOREL_ERROR_TOO_SHORT, 3, 0);
	expect_check(FORM_V2, v2_file, V2_IMAGE - 1, good, THIMMOREL_ERROR_TOO_SHORT, 3, 0);
	expect_check(FORM_V2, v2_file, V2_IMAGE + 1, good, THIMMOREL_ERROR_BYTES_FOLLOW, 3, 0);

	expect_check(FORM_PAIR, pair_file, 3, good, THIMMOREL_ERROR_VENDOR_MAGIC, 1, 0);
	expect_check(FORM_PAIR, pair_file, 4, good, THIMMOREL_ERROR_TOO_SHORT, 1, 0);
	expect_check(FORM_PAIR, pair_file, LEGACY - 1, good, THIMMOREL_ERROR_TOO_SHORT, 1, 0);
	expect_check(FORM_PAIR, pair_file, LEGACY, good, THIMMOREL_ERROR_FIRMWARE_MAGIC, 2, 0);
	expect_check(FORM_PAIR, pair_file, LEGACY + 3, good, THIMMOREL_ERROR_FIRMWARE_MAGIC, 2, 0);
	expect_check(FORM_PAIR, pair_file, LEGACY + 4, good, THIMMOREL_ERROR_TOO_SHORT, 2, 0);
	expect_check(FORM_PAIR, pair_file, PAIR - CODE - 1, good, THIMMOREL_ERROR_TOO_SHORT, 2, 0);
	expect_check(FORM_PAIR, pair_file, PAIR - CODE, good, THIMMOREL_ERROR_TOO_SHORT, 3, 0);
	expect_check(FORM_PAIR, pair_file, PAIR - 1, good, THIMMOREL_ERROR_TOO_SHORT, 3, 0);
	expect_check(FORM_PAIR, pair_file, PAIR + 1, good, THIMMOREL_ERROR_BYTES_FOLLOW, 3, 0);
}

/* In a slot the bytes after the code are erased, up to the last. There may be none. */
static void expect_tails(void)
{
	expect_v2(good, THIMMOREL_OK, 0, 0);
	expect_pair(good, THIMMOREL_OK, 0, 0);
	expect_check(FORM_V2, thimmorel_check_v2_slot, V2_IMAGE, good, THIMMOREL_OK, 0, 0);
	expect_check(FORM_PAIR, thimmorel_check_pair_slot, PAIR, good, THIMMOREL_OK, 0, 0);
	v2[SLOT - 1] = pair[SLOT - 1] = 0;
	expect_check(FORM_V2, thimmorel_check_v2_slot, SLOT, good, THIMMOREL_ERROR_BYTES_FOLLOW, 3, 0);
	expect_check(FORM_PAIR, thimmorel_check_pair_slot, SLOT, good, THIMMOREL_ERROR_BYTES_FOLLOW, 3,
		0);
	write_images();
}

/* Bytes of length 0 may be NULL. The key sheet is judged before them. */
static void expect_no_bytes(void)
{
	struct thimmorel_older_inputs sheet = good;
	struct thimmorel_answer answer;
	struct thimmorel_image image;

	EXPECT(thimmorel_check_v2_file(NULL, 0, &good, &answer, &image)
		== THIMMOREL_ERROR_FIRMWARE_MAGIC);
	EXPECT(thimmorel_check_pair_slot(NULL, 0, &good, &answer, &image)
		== THIMMOREL_ERROR_VENDOR_MAGIC);
	sheet.keys = 2;
	EXPECT(thimmorel_check_pair_file(NULL, 0, &sheet, &answer, &image) == THIMMOREL_ERROR_POLICY);
	EXPECT(tells(&answer, THIMMOREL_ERROR_POLICY, THIMMOREL_PART_NONE, 0));
	expect_code(FORM_V2, NULL, 0, THIMMOREL_ERROR_FIRMWARE_MAGIC);
}

/* A verdict of any word but 1 is no. Those on a legacy header that is not there do not matter. */
static void expect_inputs(void)
{
	static const uint32_t no[] = { 0, 2, 257, 0xffffffff }, sheets[] = { 0, 2, 256, 0xffffffff };
	struct thimmorel_older_inputs inputs;
	size_t i, j;

	for (i = 0; i < sizeof no / sizeof no[0]; i++) {
		for (j = 0; j < 3; j++) {
			inputs = good;
			inputs.v2_verdicts[j] = no[i];
			expect_v2(inputs, THIMMOREL_ERROR_VERDICT, THIMMOREL_PART_FIRMWARE_HEADER, 0);
			expect_pair(inputs, THIMMOREL_ERROR_VERDICT, THIMMOREL_PART_FIRMWARE_HEADER, 0);
			inputs = good;
			inputs.legacy_verdicts[j] = no[i];
			expect_v2(inputs, THIMMOREL_OK, 0, 0);
			expect_pair(inputs, THIMMOREL_ERROR_VERDICT, THIMMOREL_PART_VENDOR_HEADER, 0);
		}
		inputs = good;
		inputs.keys = sheets[i];
		expect_v2(inputs, THIMMOREL_ERROR_POLICY, THIMMOREL_PART_NONE, 0);
		expect_pair(inputs, THIMMOREL_ERROR_POLICY, THIMMOREL_PART_NONE, 0);
	}
	inputs = good;
	inputs.time = 101;
	expect_v2(inputs, THIMMOREL_ERROR_EXPIRED, THIMMOREL_PART_FIRMWARE_HEADER, 0);
	expect_pair(inputs, THIMMOREL_ERROR_EXPIRED, THIMMOREL_PART_FIRMWARE_HEADER, 0);
	inputs = good;
	inputs.keys = THIMMOREL_OLDER_KEYS_MAX;
	expect_pair(inputs, THIMMOREL_OK, 0, 0);
	inputs.keys = THIMMOREL_OLDER_KEYS_MIN;
	expect_v2(inputs, THIMMOREL_ERROR_SIGMASK, THIMMOREL_PART_FIRMWARE_HEADER, 0);
	expect_pair(inputs, THIMMOREL_ERROR_SIGMASK, THIMMOREL_PART_FIRMWARE_HEADER, 0);
}

int main(void)
{
	write_images();
	expect_lengths();
	expect_changes();
	expect_code_lengths();
	expect_tails();
	expect_no_bytes();
	expect_inputs();
	return EXIT_SUCCESS;
}
