/*
 * The loaders' calls from C: a loader of 1,028 bytes, built by hand, on a card and in the internal
 * area; the digest that its signature signs; both checks; and the choice. The exit status is 0 if
 * each call answers as it should. It is also valid C++.
 */

#include "expect.h"

enum { HEADER = 1024, CODE = 4, LOADER = HEADER + CODE, AREA = 4096 };

/* Two of three keys sign. The loaders expire after 100. */
static const struct thimmorel_loader_inputs both = { 100, 2, 3, 1, 1 };

static const uint8_t code[CODE] = { 'c', 'o', 'd', 'e' };
static uint8_t card[AREA], internal[AREA];

/* The loader at the start of an area, and behind it bytes of one kind. */
static void write_area(uint8_t *area, uint8_t after)
{
	static const uint8_t head[24] = { 'T', 'R', 'Z', 'B', 0, 4, 0, 0, 100, 0, 0, 0, CODE, 0, 0, 0,
		2, 3, 4, 5, 2, 0, 0, 0 };

	memset(area, 0, HEADER);
	memset(area + HEADER, after, AREA - HEADER);
	memcpy(area, head, sizeof head);
	memcpy(area + HEADER, code, CODE);
	thimmorel_digest(code, CODE, area + 32);
	area[959] = 0x03;
	memset(area + 960, 9, 64);
}

static void write_areas(void)
{
	write_area(card, 0);
	write_area(internal, 255);
}

typedef uint32_t check_call(const uint8_t *bytes, uint64_t length,
	const struct thimmorel_loader_inputs *inputs, struct thimmorel_answer *answer,
	struct thimmorel_image *image);

/* The answer is always written, and the image only on success. */
static void expect_check(check_call *check, const uint8_t *area, uint64_t length,
	struct thimmorel_loader_inputs inputs, uint32_t number, uint32_t part, uint32_t chunk)
{
	struct thimmorel_answer answer;
	struct thimmorel_image image;

	MARK(answer);
	MARK(image);
	EXPECT(check(area, length, &inputs, &answer, &image) == number);
	EXPECT(tells(&answer, number, part, chunk));
	if (number != THIMMOREL_OK) {
		EXPECT(IS_UNCHANGED(image));
	} else {
		EXPECT(image.vendor_length == 0 && image.code_length == CODE);
		EXPECT(image.version == 0x05040302 && image.fix_version == 2);
	}
}

/* The same answer for both areas. */
static void expect_checks(uint64_t length, struct thimmorel_loader_inputs inputs, uint32_t number,
	uint32_t part, uint32_t chunk)
{
	expect_check(thimmorel_check_card, card, length, inputs, number, part, chunk);
	expect_check(thimmorel_check_internal, internal, length, inputs, number, part, chunk);
}

/* A byte of each area changed, and the answer, in the order of the steps. */
static const struct {
	uint32_t at;
	uint8_t byte;
	uint32_t number, part, chunk;
} changes[] = {
	{ 3, 'V', THIMMOREL_ERROR_VENDOR_MAGIC, THIMMOREL_PART_FIRMWARE_HEADER, 0 },
	{ 4, 1, THIMMOREL_ERROR_FIRMWARE_LENGTH, THIMMOREL_PART_FIRMWARE_HEADER, 0 },
	{ 12, 0, THIMMOREL_ERROR_CODE_LENGTH, THIMMOREL_PART_FIRMWARE_HEADER, 0 },
	{ 12, 6, THIMMOREL_ERROR_CODE_LENGTH, THIMMOREL_PART_FIRMWARE_HEADER, 0 },
	{ 14, 2, THIMMOREL_ERROR_CODE_LENGTH, THIMMOREL_PART_FIRMWARE_HEADER, 0 },
	{ 24, 1, THIMMOREL_ERROR_NOT_ZERO, THIMMOREL_PART_FIRMWARE_HEADER, 0 },
	{ 958, 1, THIMMOREL_ERROR_NOT_ZERO, THIMMOREL_PART_FIRMWARE_HEADER, 0 },
	{ 8, 99, THIMMOREL_ERROR_EXPIRED, THIMMOREL_PART_FIRMWARE_HEADER, 0 },
	{ 959, 0x01, THIMMOREL_ERROR_SIGMASK, THIMMOREL_PART_FIRMWARE_HEADER, 0 },
	{ 959, 0x07, THIMMOREL_ERROR_SIGMASK, THIMMOREL_PART_FIRMWARE_HEADER, 0 },
	{ 959, 0x09, THIMMOREL_ERROR_SIGMASK, THIMMOREL_PART_FIRMWARE_HEADER, 0 },
	{ 959, 0x0b, THIMMOREL_ERROR_SIGMASK, THIMMOREL_PART_FIRMWARE_HEADER, 0 },
	{ 13, 255, THIMMOREL_ERROR_TOO_SHORT, THIMMOREL_PART_CODE, 0 },
	{ LOADER, 1, THIMMOREL_ERROR_BYTES_FOLLOW, THIMMOREL_PART_CODE, 0 },
	{ AREA - 1, 1, THIMMOREL_ERROR_BYTES_FOLLOW, THIMMOREL_PART_CODE, 0 },
	{ HEADER, 'm', THIMMOREL_ERROR_CHUNK_HASH, THIMMOREL_PART_CODE, 1 },
	{ 64, 1, THIMMOREL_ERROR_UNUSED_HASH, THIMMOREL_PART_CODE, 2 },
	{ 543, 1, THIMMOREL_ERROR_UNUSED_HASH, THIMMOREL_PART_CODE, 16 },
};

static void expect_changes(void)
{
	size_t i;

	for (i = 0; i < sizeof changes / sizeof changes[0]; i++) {
		card[changes[i].at] = internal[changes[i].at] = changes[i].byte;
		expect_checks(AREA, both, changes[i].number, changes[i].part, changes[i].chunk);
		write_areas();
	}
	/* The longest code, none of which is there, and 4 bytes more. */
	card[12] = internal[12] = 0;
	card[13] = internal[13] = 0xfc;
	card[14] = internal[14] = 1;
	EXPECT(THIMMOREL_LOADER_CODE_MAX == 0x1fc00);
	expect_checks(AREA, both, THIMMOREL_ERROR_TOO_SHORT, THIMMOREL_PART_CODE, 0);
	card[12] = internal[12] = 4;
	expect_checks(AREA, both, THIMMOREL_ERROR_CODE_LENGTH, THIMMOREL_PART_FIRMWARE_HEADER, 0);
	write_areas();
}

/* What follows the code in one area is wrong in the other. A loader may also end its area. */
static void expect_tails(void)
{
	expect_check(thimmorel_check_card, internal, AREA, both, THIMMOREL_ERROR_BYTES_FOLLOW,
		THIMMOREL_PART_CODE, 0);
	expect_check(thimmorel_check_internal, card, AREA, both, THIMMOREL_ERROR_BYTES_FOLLOW,
		THIMMOREL_PART_CODE, 0);
	expect_check(thimmorel_check_card, internal, LOADER, both, THIMMOREL_OK, 0, 0);
	expect_check(thimmorel_check_internal, card, LOADER, both, THIMMOREL_OK, 0, 0);
}

static void expect_lengths(void)
{
	expect_checks(3, both, THIMMOREL_ERROR_VENDOR_MAGIC, THIMMOREL_PART_FIRMWARE_HEADER, 0);
	expect_checks(4, both, THIMMOREL_ERROR_TOO_SHORT, THIMMOREL_PART_FIRMWARE_HEADER, 0);
	expect_checks(HEADER - 1, both, THIMMOREL_ERROR_TOO_SHORT, THIMMOREL_PART_FIRMWARE_HEADER, 0);
	expect_checks(HEADER, both, THIMMOREL_ERROR_TOO_SHORT, THIMMOREL_PART_CODE, 0);
	expect_checks(LOADER - 1, both, THIMMOREL_ERROR_TOO_SHORT, THIMMOREL_PART_CODE, 0);
	expect_checks(LOADER, both, THIMMOREL_OK, 0, 0);
	expect_checks(AREA, both, THIMMOREL_OK, 0, 0);
	expect_check(thimmorel_check_card, NULL, 0, both, THIMMOREL_ERROR_VENDOR_MAGIC,
		THIMMOREL_PART_FIRMWARE_HEADER, 0);
}

/* A verdict of any word but 1 is no, and that on the other area does not matter. */
static void expect_inputs(void)
{
	static const uint32_t no[] = { 0, 2, 257, 0xffffffff };
	struct thimmorel_loader_inputs late = both, policy = both, verdicts;
	size_t i;

	late.time = 101;
	expect_checks(AREA, late, THIMMOREL_ERROR_EXPIRED, THIMMOREL_PART_FIRMWARE_HEADER, 0);
	policy.n = 9;
	expect_checks(AREA, policy, THIMMOREL_ERROR_POLICY, THIMMOREL_PART_NONE, 0);
	policy.m = policy.n = 3;
	expect_checks(AREA, policy, THIMMOREL_ERROR_SIGMASK, THIMMOREL_PART_FIRMWARE_HEADER, 0);
	policy.m = 1;
	expect_checks(AREA, policy, THIMMOREL_ERROR_SIGMASK, THIMMOREL_PART_FIRMWARE_HEADER, 0);
	for (i = 0; i < sizeof no / sizeof no[0]; i++) {
		verdicts = both;
		verdicts.card_verdict = no[i];
		expect_check(thimmorel_check_card, card, AREA, verdicts, THIMMOREL_ERROR_VERDICT,
			THIMMOREL_PART_FIRMWARE_HEADER, 0);
		expect_check(thimmorel_check_internal, internal, AREA, verdicts, THIMMOREL_OK, 0, 0);
		verdicts = both;
		verdicts.internal_verdict = no[i];
		expect_check(thimmorel_check_card, card, AREA, verdicts, THIMMOREL_OK, 0, 0);
		expect_check(thimmorel_check_internal, internal, AREA, verdicts, THIMMOREL_ERROR_VERDICT,
			THIMMOREL_PART_FIRMWARE_HEADER, 0);
	}
}

static void expect_digest(uint64_t length, uint32_t number)
{
	struct thimmorel_answer answer;
	uint8_t digest[32], copy[HEADER], expected[32];

	MARK(answer);
	MARK(digest);
	EXPECT(thimmorel_loader_digest(card, length, &answer, digest) == number);
	if (number != THIMMOREL_OK) {
		EXPECT(tells(&answer, number, THIMMOREL_PART_FIRMWARE_HEADER, 0) && IS_UNCHANGED(digest));
		return;
	}
	memcpy(copy, card, HEADER);
	memset(copy + 959, 0, 65);
	thimmorel_digest(copy, HEADER, expected);
	EXPECT(IS_ZERO(answer) && IS_SAME(digest, expected));
}

/* The code need not be present, and sigmask and expiry are not judged. */
static void expect_digests(void)
{
	expect_digest(AREA, THIMMOREL_OK);
	expect_digest(HEADER, THIMMOREL_OK);
	card[8] = 1;
	card[959] = 0xff;
	expect_digest(HEADER, THIMMOREL_OK);
	expect_digest(HEADER - 1, THIMMOREL_ERROR_TOO_SHORT);
	expect_digest(3, THIMMOREL_ERROR_VENDOR_MAGIC);
	card[544] = 1;
	expect_digest(HEADER, THIMMOREL_ERROR_NOT_ZERO);
	card[12] = 3;
	expect_digest(HEADER, THIMMOREL_ERROR_CODE_LENGTH);
	card[7] = 1;
	expect_digest(HEADER, THIMMOREL_ERROR_FIRMWARE_LENGTH);
	card[0] = 't';
	expect_digest(HEADER, THIMMOREL_ERROR_VENDOR_MAGIC);
	write_areas();
}

/* Answer and loader are always written. A refusal is that of the internal area. */
static void expect_choice(uint64_t card_length, uint64_t internal_length, uint32_t card_verdict,
	uint32_t internal_verdict, uint64_t area, struct thimmorel_answer expected)
{
	const struct thimmorel_loader_inputs inputs = { 100, 2, 3, card_verdict, internal_verdict };
	struct thimmorel_answer answer;
	struct thimmorel_loader loader;

	MARK(answer);
	MARK(loader);
	EXPECT(thimmorel_choose_loader(card, card_length, internal, internal_length, &inputs, &answer,
		&loader) == expected.number);
	EXPECT(IS_SAME(answer, expected) && loader.area == area && loader.place.start == 0);
	EXPECT(loader.place.length == (area == THIMMOREL_AREA_NONE ? 0 : LOADER));
}

static void expect_choices(void)
{
	static const struct thimmorel_answer ok = { 0, 0, 0 }, verdict = { THIMMOREL_ERROR_VERDICT, 2, 0 };
	static const struct thimmorel_answer magic = { THIMMOREL_ERROR_VENDOR_MAGIC, 2, 0 };
	static const struct thimmorel_answer cut = { THIMMOREL_ERROR_TOO_SHORT, 3, 0 };
	static const struct thimmorel_answer hash = { THIMMOREL_ERROR_UNUSED_HASH, 3, 9 };

	expect_choice(AREA, AREA, 1, 1, THIMMOREL_AREA_CARD, ok);
	expect_choice(AREA, AREA, 1, 0, THIMMOREL_AREA_CARD, ok);
	expect_choice(AREA, AREA, 0, 1, THIMMOREL_AREA_INTERNAL, ok);
	expect_choice(AREA, AREA, 0, 0, THIMMOREL_AREA_NONE, verdict);
	expect_choice(AREA, 0, 1, 1, THIMMOREL_AREA_CARD, ok);
	expect_choice(0, AREA, 1, 1, THIMMOREL_AREA_INTERNAL, ok);
	expect_choice(0, 0, 1, 1, THIMMOREL_AREA_NONE, magic);
	expect_choice(LOADER - 1, AREA, 1, 1, THIMMOREL_AREA_INTERNAL, ok);
	expect_choice(HEADER - 1, LOADER - 1, 1, 1, THIMMOREL_AREA_NONE, cut);
	internal[9 * 32] = 1;
	expect_choice(AREA, AREA, 1, 1, THIMMOREL_AREA_CARD, ok);
	expect_choice(AREA, AREA, 0, 1, THIMMOREL_AREA_NONE, hash);
	write_areas();
}

/* An area that is not there may be NULL. */
static void expect_no_areas(void)
{
	struct thimmorel_answer answer;
	struct thimmorel_loader loader;

	MARK(loader);
	EXPECT(thimmorel_choose_loader(NULL, 0, internal, AREA, &both, &answer, &loader)
		== THIMMOREL_OK);
	EXPECT(IS_ZERO(answer) && loader.area == THIMMOREL_AREA_INTERNAL);
	MARK(loader);
	EXPECT(thimmorel_choose_loader(NULL, 0, NULL, 0, &both, &answer, &loader)
		== THIMMOREL_ERROR_VENDOR_MAGIC);
	EXPECT(tells(&answer, 1, 2, 0) && IS_ZERO(loader));
}

int main(void)
{
	write_areas();
	expect_lengths();
	expect_changes();
	expect_tails();
	expect_inputs();
	expect_digests();
	expect_choices();
	expect_no_areas();
	return EXIT_SUCCESS;
}
