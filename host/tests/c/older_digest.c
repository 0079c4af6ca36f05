/*
 * The older model's digests from C: SHA-256 of "abc", whose digest NIST prints, and of no bytes at
 * all; and the digests that the signatures of both headers sign. The exit status is 0 if each call
 * answers as it should. It is also valid C++.
 */

#include "older.h"

static void expect_known_digests(void)
{
	static const uint8_t abc[3] = { 'a', 'b', 'c' };
	static const uint8_t digest_of_abc[32] = {
		0xba, 0x78, 0x16, 0xbf, 0x8f, 0x01, 0xcf, 0xea, 0x41, 0x41, 0x40, 0xde, 0x5d, 0xae, 0x22,
		0x23, 0xb0, 0x03, 0x61, 0xa3, 0x96, 0x17, 0x7a, 0x9c, 0xb4, 0x10, 0xff, 0x61, 0xf2, 0x00,
		0x15, 0xad,
	};
	static const uint8_t digest_of_nothing[32] = {
		0xe3, 0xb0, 0xc4, 0x42, 0x98, 0xfc, 0x1c, 0x14, 0x9a, 0xfb, 0xf4, 0xc8, 0x99, 0x6f, 0xb9,
		0x24, 0x27, 0xae, 0x41, 0xe4, 0x64, 0x9b, 0x93, 0x4c, 0xa4, 0x95, 0x99, 0x1b, 0x78, 0x52,
		0xb8, 0x55,
	};
	uint8_t digest[32];

	thimmorel_sha256(abc, sizeof abc, digest);
	EXPECT(IS_SAME(digest, digest_of_abc));
	thimmorel_sha256(NULL, 0, digest);
	EXPECT(IS_SAME(digest, digest_of_nothing));
}

typedef uint32_t digest_call(const uint8_t *bytes, uint64_t length,
	struct thimmorel_answer *answer, uint8_t digest[32]);

/* On success the digest is that of these bytes. */
static void expect_digest(digest_call *ask, const uint8_t *bytes, uint64_t length, uint32_t number,
	uint32_t part, const uint8_t *signed_bytes, uint64_t signed_length)
{
	struct thimmorel_answer answer;
	uint8_t digest[32], expected[32];

	MARK(answer);
	MARK(digest);
	EXPECT(ask(bytes, length, &answer, digest) == number);
	EXPECT(tells(&answer, number, part, 0));
	if (number != THIMMOREL_OK) {
		EXPECT(IS_UNCHANGED(digest));
		return;
	}
	thimmorel_sha256(signed_bytes, signed_length, expected);
	EXPECT(IS_SAME(digest, expected));
}

/* No key sheet, expiry or index is judged. The legacy digest needs the code, the others do not. */
static void expect_digests(void)
{
	digest_call *of_v2 = thimmorel_v2_digest, *of_pair = thimmorel_pair_v2_digest;
	digest_call *of_legacy = thimmorel_pair_legacy_digest;
	uint8_t copy[HEADER];

	memcpy(copy, v2, HEADER);
	memset(copy + 544, 0, 195);
	v2[736] = pair[8] = pair[LEGACY + 736] = 0;
	expect_digest(of_v2, v2, HEADER, THIMMOREL_OK, 0, copy, HEADER);
	expect_digest(of_pair, pair, LEGACY + HEADER, THIMMOREL_OK, 0, copy, HEADER);
	expect_digest(of_legacy, pair, PAIR, THIMMOREL_OK, 0, pair + LEGACY, V2_IMAGE);
	expect_digest(of_legacy, pair, SLOT, THIMMOREL_OK, 0, pair + LEGACY, V2_IMAGE);
	expect_digest(of_legacy, pair, PAIR - 1, THIMMOREL_ERROR_TOO_SHORT, 3, NULL, 0);
	expect_digest(of_legacy, pair, LEGACY - 1, THIMMOREL_ERROR_TOO_SHORT, 1, NULL, 0);
	expect_digest(of_pair, pair, LEGACY + HEADER - 1, THIMMOREL_ERROR_TOO_SHORT, 2, NULL, 0);
	expect_digest(of_v2, v2, HEADER - 1, THIMMOREL_ERROR_TOO_SHORT, 2, NULL, 0);

	/* The V2 header is not judged for the legacy digest. */
	v2[739] = pair[LEGACY + 739] = 1;
	expect_digest(of_v2, v2, HEADER, THIMMOREL_ERROR_NOT_ZERO, 2, NULL, 0);
	expect_digest(of_pair, pair, PAIR, THIMMOREL_ERROR_NOT_ZERO, 2, NULL, 0);
	expect_digest(of_legacy, pair, PAIR, THIMMOREL_OK, 0, pair + LEGACY, V2_IMAGE);
	v2[12] = pair[LEGACY + 12] = 3;
	expect_digest(of_v2, v2, HEADER, THIMMOREL_ERROR_CODE_LENGTH, 2, NULL, 0);
	expect_digest(of_pair, pair, PAIR, THIMMOREL_ERROR_CODE_LENGTH, 2, NULL, 0);
	v2[7] = pair[LEGACY + 7] = 1;
	expect_digest(of_v2, v2, HEADER, THIMMOREL_ERROR_FIRMWARE_LENGTH, 2, NULL, 0);
	expect_digest(of_pair, pair, PAIR, THIMMOREL_ERROR_FIRMWARE_LENGTH, 2, NULL, 0);
	v2[0] = pair[LEGACY] = 't';
	expect_digest(of_v2, v2, HEADER, THIMMOREL_ERROR_FIRMWARE_MAGIC, 2, NULL, 0);
	expect_digest(of_pair, pair, PAIR, THIMMOREL_ERROR_FIRMWARE_MAGIC, 2, NULL, 0);
	expect_digest(of_legacy, pair, PAIR, THIMMOREL_OK, 0, pair + LEGACY, V2_IMAGE);

	pair[11] = 1;
	expect_digest(of_pair, pair, PAIR, THIMMOREL_ERROR_NOT_ZERO, 1, NULL, 0);
	expect_digest(of_legacy, pair, PAIR, THIMMOREL_ERROR_NOT_ZERO, 1, NULL, 0);
	pair[4] = 0;
	expect_digest(of_pair, pair, PAIR, THIMMOREL_ERROR_CODE_LENGTH, 1, NULL, 0);
	expect_digest(of_legacy, pair, PAIR, THIMMOREL_ERROR_CODE_LENGTH, 1, NULL, 0);
	pair[0] = 't';
	expect_digest(of_pair, pair, PAIR, THIMMOREL_ERROR_VENDOR_MAGIC, 1, NULL, 0);
	expect_digest(of_legacy, pair, PAIR, THIMMOREL_ERROR_VENDOR_MAGIC, 1, NULL, 0);
	write_images();
}

int main(void)
{
	write_images();
	expect_known_digests();
	expect_digests();
	return EXIT_SUCCESS;
}
