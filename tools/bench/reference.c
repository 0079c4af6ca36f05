/*
 * BLAKE2s without a key, transcribed from RFC 7693 into plain portable C: sixteen words in locals,
 * ten unrolled rounds, no vector instructions. Each compiler builds it once, under the name
 * that REFERENCE_DIGEST gives.
 */

#include "reference.h"

#include <string.h>

#if __BYTE_ORDER__ != __ORDER_LITTLE_ENDIAN__
#error "words are loaded and stored as they lie, least byte first"
#endif

enum { BLOCK = 64 };

static const uint32_t IV[8] = {
	0x6a09e667, 0xbb67ae85, 0x3c6ef372, 0xa54ff53a,
	0x510e527f, 0x9b05688c, 0x1f83d9ab, 0x5be0cd19,
};

static inline uint32_t rotr(uint32_t x, unsigned n)
{
	return x >> n | x << (32 - n);
}

#define G(a, b, c, d, x, y) \
	do { \
		a += b + (x); \
		d = rotr(d ^ a, 16); \
		c += d; \
		b = rotr(b ^ c, 12); \
		a += b + (y); \
		d = rotr(d ^ a, 8); \
		c += d; \
		b = rotr(b ^ c, 7); \
	} while (0)

/* The arguments are a row of SIGMA. */
#define ROUND(s0, s1, s2, s3, s4, s5, s6, s7, s8, s9, s10, s11, s12, s13, s14, s15) \
	do { \
		G(v0, v4, v8, v12, m[s0], m[s1]); \
		G(v1, v5, v9, v13, m[s2], m[s3]); \
		G(v2, v6, v10, v14, m[s4], m[s5]); \
		G(v3, v7, v11, v15, m[s6], m[s7]); \
		G(v0, v5, v10, v15, m[s8], m[s9]); \
		G(v1, v6, v11, v12, m[s10], m[s11]); \
		G(v2, v7, v8, v13, m[s12], m[s13]); \
		G(v3, v4, v9, v14, m[s14], m[s15]); \
	} while (0)

static void compress(uint32_t h[8], const uint8_t *block, uint64_t t, uint32_t last)
{
	uint32_t m[16];
	uint32_t v0 = h[0], v1 = h[1], v2 = h[2], v3 = h[3];
	uint32_t v4 = h[4], v5 = h[5], v6 = h[6], v7 = h[7];
	uint32_t v8 = IV[0], v9 = IV[1], v10 = IV[2], v11 = IV[3];
	uint32_t v12 = IV[4] ^ (uint32_t)t, v13 = IV[5] ^ (uint32_t)(t >> 32);
	uint32_t v14 = IV[6] ^ last, v15 = IV[7];

	memcpy(m, block, BLOCK);

	ROUND(0, 1, 2, 3, 4, 5, 6, 7, 8, 9, 10, 11, 12, 13, 14, 15);
	ROUND(14, 10, 4, 8, 9, 15, 13, 6, 1, 12, 0, 2, 11, 7, 5, 3);
	ROUND(11, 8, 12, 0, 5, 2, 15, 13, 10, 14, 3, 6, 7, 1, 9, 4);
	ROUND(7, 9, 3, 1, 13, 12, 11, 14, 2, 6, 5, 10, 4, 0, 15, 8);
	ROUND(9, 0, 5, 7, 2, 4, 10, 15, 14, 1, 11, 12, 6, 8, 3, 13);
	ROUND(2, 12, 6, 10, 0, 11, 8, 3, 4, 13, 7, 5, 15, 14, 1, 9);
	ROUND(12, 5, 1, 15, 14, 13, 4, 10, 0, 7, 6, 3, 9, 2, 8, 11);
	ROUND(13, 11, 7, 14, 12, 1, 3, 9, 5, 0, 15, 4, 8, 6, 2, 10);
	ROUND(6, 15, 14, 9, 11, 3, 0, 8, 12, 2, 13, 7, 1, 4, 10, 5);
	ROUND(10, 2, 8, 4, 7, 6, 1, 5, 15, 11, 9, 14, 3, 12, 13, 0);

	h[0] ^= v0 ^ v8;
	h[1] ^= v1 ^ v9;
	h[2] ^= v2 ^ v10;
	h[3] ^= v3 ^ v11;
	h[4] ^= v4 ^ v12;
	h[5] ^= v5 ^ v13;
	h[6] ^= v6 ^ v14;
	h[7] ^= v7 ^ v15;
}

void REFERENCE_DIGEST(const uint8_t *bytes, uint64_t length, uint8_t digest[32])
{
	uint8_t last[BLOCK] = { 0 };
	uint32_t h[8];
	uint64_t done = 0;

	memcpy(h, IV, sizeof h);
	h[0] ^= 0x01010020;

	for (; length - done > BLOCK; done += BLOCK)
		compress(h, bytes + done, done + BLOCK, 0);
	memcpy(last, bytes + done, length - done);
	compress(h, last, length, 0xffffffff);

	memcpy(digest, h, sizeof h);
}
