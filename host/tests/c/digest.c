/*
 * All calls but the installer's, the loaders' and the older model's from C: "abc", whose digest RFC
 * 7693 prints in appendix B, and no bytes at all; the writers; the digests that signatures sign, and
 * what else a chip needs; the file check, and what is told of an image. The exit status is 0 if each
 * call answers as it should. It is also valid C++.
 */

#include "writers.h"

static const uint8_t digest_of_abc[32] = {
	0x50, 0x8c, 0x5e, 0x8c, 0x32, 0x7c, 0x14, 0xe2, 0xe1, 0xa7, 0x2b, 0xa3, 0x4e, 0xeb, 0x45, 0x2f,
	0x37, 0x45, 0x8b, 0x20, 0x9e, 0xd6, 0x3a, 0x29, 0x4d, 0x99, 0x9b, 0x4c, 0x86, 0x67, 0x59, 0x82,
};

static const uint8_t digest_of_nothing[32] = {
	0x69, 0x21, 0x7a, 0x30, 0x79, 0x90, 0x80, 0x94, 0xe1, 0x11, 0x21, 0xd0, 0x42, 0x35, 0x4a, 0x7c,
	0x1f, 0x55, 0xb6, 0x48, 0x2c, 0xa1, 0xa5, 0x1e, 0x1b, 0x25, 0x0d, 0xfd, 0x1e, 0xd0, 0xee, 0xf9,
};

static void expect_known_digests(void)
{
	static const uint8_t abc[3] = { 'a', 'b', 'c' };
	uint8_t digest[32];

	thimmorel_digest(abc, sizeof abc, digest);
	EXPECT(IS_SAME(digest, digest_of_abc));
	thimmorel_digest(NULL, 0, digest);
	EXPECT(IS_SAME(digest, digest_of_nothing));
}

/* The digest of a header with its last 65 bytes taken as zero. */
static void digest_unsigned(const uint8_t *header, size_t length, uint8_t digest[32])
{
	static uint8_t copy[HEADER];

	memcpy(copy, header, length);
	memset(copy + length - 65, 0, 65);
	thimmorel_digest(copy, length, digest);
}

/* The vendor digest needs nothing after the vendor header, and the firmware digest no code. */
static void expect_header_digests(void)
{
	struct thimmorel_answer answer;
	uint8_t digest[32], expected[32];

	MARK(answer);
	digest_unsigned(file, V, expected);
	EXPECT(thimmorel_vendor_digest(file, V, &answer, digest) == THIMMOREL_OK);
	EXPECT(IS_ZERO(answer) && IS_SAME(digest, expected));
	MARK(answer);
	digest_unsigned(file + V, HEADER, expected);
	EXPECT(thimmorel_firmware_digest(file, V + HEADER, &answer, digest) == THIMMOREL_OK);
	EXPECT(IS_ZERO(answer) && IS_SAME(digest, expected));
}

static int is_span(struct thimmorel_span span, uint64_t start, uint64_t length)
{
	return span.start == start && span.length == length;
}

static void expect_signatures(void)
{
	struct thimmorel_signature at;

	MARK(at);
	thimmorel_find_vendor_signature(file, V, &at);
	EXPECT(is_span(at.sigmask, V - 65, 1) && is_span(at.sig, V - 64, 64));
	EXPECT(is_span(at.keys, 0, 0) && at.m == 0 && at.n == 0);
	EXPECT(file[at.sigmask.start] == 0x03 && memcmp(file + at.sig.start, sig, sizeof sig) == 0);
	MARK(at);
	thimmorel_find_firmware_signature(file, V + HEADER, &at);
	EXPECT(is_span(at.sigmask, V + HEADER - 65, 1) && is_span(at.sig, V + HEADER - 64, 64));
	EXPECT(is_span(at.keys, 32, sizeof keys) && at.m == 1 && at.n == 2);
	EXPECT(file[at.sigmask.start] == 0x01 && memcmp(file + at.sig.start, sig, sizeof sig) == 0);
	EXPECT(memcmp(file + at.keys.start, keys, sizeof keys) == 0);
}

/* The numbers for both headers of the file's first bytes, and the part of a refusal. A refused
   digest is not written, and no signature is found. */
static void expect_answers(uint64_t length, uint32_t vendor, uint32_t firmware, uint32_t part)
{
	struct thimmorel_signature at;
	struct thimmorel_answer answer;
	uint8_t digest[32];

	MARK(answer);
	MARK(digest);
	EXPECT(thimmorel_vendor_digest(file, length, &answer, digest) == vendor);
	EXPECT(tells(&answer, vendor, vendor == THIMMOREL_OK ? 0 : part, 0));
	EXPECT(IS_UNCHANGED(digest) == (vendor != THIMMOREL_OK));
	thimmorel_find_vendor_signature(file, length, &at);
	EXPECT(IS_ZERO(at) == (vendor != THIMMOREL_OK));
	MARK(answer);
	MARK(digest);
	EXPECT(thimmorel_firmware_digest(file, length, &answer, digest) == firmware);
	EXPECT(tells(&answer, firmware, firmware == THIMMOREL_OK ? 0 : part, 0));
	EXPECT(IS_UNCHANGED(digest) == (firmware != THIMMOREL_OK));
	thimmorel_find_firmware_signature(file, length, &at);
	EXPECT(IS_ZERO(at) == (firmware != THIMMOREL_OK));
}

/* A byte of the file changed, and the answers. A sigmask is not looked at. */
static const struct {
	uint32_t at;
	uint8_t byte;
	uint32_t vendor, firmware, part;
} changes[] = {
	{ 0, 'X', THIMMOREL_ERROR_VENDOR_MAGIC, THIMMOREL_ERROR_VENDOR_MAGIC, 1 },
	{ 4, 1, THIMMOREL_ERROR_VENDOR_LENGTH, THIMMOREL_ERROR_VENDOR_LENGTH, 1 },
	{ 5, 8, THIMMOREL_ERROR_TOO_SHORT, THIMMOREL_ERROR_TOO_SHORT, 1 },
	{ 14, 0, THIMMOREL_ERROR_VENDOR_KEYS, THIMMOREL_ERROR_VENDOR_KEYS, 1 },
	{ 18, 1, THIMMOREL_ERROR_NOT_ZERO, THIMMOREL_ERROR_NOT_ZERO, 1 },
	{ V, 'X', THIMMOREL_OK, THIMMOREL_ERROR_FIRMWARE_MAGIC, 2 },
	{ V + 4, 1, THIMMOREL_OK, THIMMOREL_ERROR_FIRMWARE_LENGTH, 2 },
	{ V + 12, 0, THIMMOREL_OK, THIMMOREL_ERROR_CODE_LENGTH, 2 },
	{ V + 24, 1, THIMMOREL_OK, THIMMOREL_ERROR_NOT_ZERO, 2 },
	{ V - 65, 0, THIMMOREL_OK, THIMMOREL_OK, 0 },
};

static void expect_refused_digests(void)
{
	size_t i;

	for (i = 0; i < sizeof changes / sizeof changes[0]; i++) {
		file[changes[i].at] = changes[i].byte;
		expect_answers(sizeof file, changes[i].vendor, changes[i].firmware, changes[i].part);
		write_image();
	}
	/* Eight keys, and a string that leaves no room. */
	file[15] = 8;
	file[32 + 8 * 32] = 255;
	expect_answers(sizeof file, THIMMOREL_ERROR_STRING_LENGTH, THIMMOREL_ERROR_STRING_LENGTH, 1);
	write_image();
	expect_answers(0, THIMMOREL_ERROR_VENDOR_MAGIC, THIMMOREL_ERROR_VENDOR_MAGIC, 1);
	expect_answers(V - 1, THIMMOREL_ERROR_TOO_SHORT, THIMMOREL_ERROR_TOO_SHORT, 1);
	expect_answers(V + HEADER - 1, THIMMOREL_OK, THIMMOREL_ERROR_TOO_SHORT, 2);
}

/* Inputs, and the answer. A verdict of any word but 1 is no, also if its low byte is 1. */
static const struct {
	struct thimmorel_inputs inputs;
	uint32_t number, part;
} inputs[] = {
	{ { 100, 2, 3, 1, 1 }, THIMMOREL_OK, THIMMOREL_PART_NONE },
	{ { 101, 2, 3, 1, 1 }, THIMMOREL_ERROR_EXPIRED, THIMMOREL_PART_VENDOR_HEADER },
	{ { 100, 258, 259, 1, 1 }, THIMMOREL_ERROR_POLICY, THIMMOREL_PART_NONE },
	{ { 100, 3, 3, 1, 1 }, THIMMOREL_ERROR_SIGMASK, THIMMOREL_PART_VENDOR_HEADER },
	{ { 100, 1, 3, 1, 1 }, THIMMOREL_ERROR_SIGMASK, THIMMOREL_PART_VENDOR_HEADER },
	{ { 100, 2, 3, 0, 1 }, THIMMOREL_ERROR_VERDICT, THIMMOREL_PART_VENDOR_HEADER },
	{ { 100, 2, 3, 257, 1 }, THIMMOREL_ERROR_VERDICT, THIMMOREL_PART_VENDOR_HEADER },
	{ { 100, 2, 3, 1, 0xffffffff }, THIMMOREL_ERROR_VERDICT, THIMMOREL_PART_FIRMWARE_HEADER },
};

/* The answer is always written, and the image only on success. */
static void expect_check(const struct thimmorel_inputs *given, uint32_t number, uint32_t part,
	uint32_t chunk)
{
	struct thimmorel_answer answer;
	struct thimmorel_image image;

	MARK(answer);
	MARK(image);
	EXPECT(thimmorel_check_file(file, sizeof file, given, &answer, &image) == number);
	EXPECT(tells(&answer, number, part, chunk));
	if (number != THIMMOREL_OK) {
		EXPECT(IS_UNCHANGED(image));
	} else {
		EXPECT(image.vendor_length == V && image.code_length == CODE);
		EXPECT(image.version == 0x05040302 && image.fix_version == 2);
	}
}

static void expect_checks(void)
{
	size_t i;

	for (i = 0; i < sizeof inputs / sizeof inputs[0]; i++)
		expect_check(&inputs[i].inputs, inputs[i].number, inputs[i].part, 0);
	file[V + HEADER] ^= 1;
	expect_check(&inputs[0].inputs, THIMMOREL_ERROR_CHUNK_HASH, THIMMOREL_PART_CODE, 1);
	write_image();
	file[V + 32 + 15 * 32] ^= 1;
	expect_check(&inputs[0].inputs, THIMMOREL_ERROR_UNUSED_HASH, THIMMOREL_PART_CODE, 16);
	write_image();
}

/* The picture starts at P2's 100, after a string of 3 behind 2 keys. */
static void expect_parts(void)
{
	struct thimmorel_parts parts;

	MARK(parts);
	thimmorel_find_parts(file, sizeof file, THIMMOREL_OK, &parts);
	EXPECT(is_span(parts.string, 97, sizeof string));
	EXPECT(is_span(parts.picture, 100, V - 65 - 100));
	EXPECT(is_span(parts.code, V + HEADER, CODE));
	thimmorel_find_parts(file, sizeof file, THIMMOREL_ERROR_EXPIRED, &parts);
	EXPECT(IS_ZERO(parts));
}

/* No bytes count as a vtrust of 0, so that all is active. */
static void expect_trust(void)
{
	struct thimmorel_trust trust;

	MARK(trust);
	thimmorel_read_trust(file, sizeof file, &trust);
	EXPECT(trust.seconds == 9 && trust.red_background == 0 && trust.click_needed == 0
		&& trust.string_shown == 0 && trust.secret_allowed == 0);
	thimmorel_read_trust(NULL, 0, &trust);
	EXPECT(trust.seconds == 15 && trust.red_background == 1 && trust.click_needed == 1
		&& trust.string_shown == 1 && trust.secret_allowed == 1);
}

int main(void)
{
	expect_known_digests();
	write_image();
	expect_writers();
	expect_header_digests();
	expect_signatures();
	expect_refused_digests();
	expect_checks();
	expect_parts();
	expect_trust();
	return EXIT_SUCCESS;
}
