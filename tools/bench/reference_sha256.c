/*
 * SHA-256, transcribed from FIPS 180-4 into plain portable C: eight words in locals, 64 unrolled
 * rounds, of the schedule the sixteen words that the next rounds need, no vector instructions.
 * Each compiler builds it once, under the name that REFERENCE_DIGEST gives.
 */

#include "reference.h"

#include <string.h>

enum { BLOCK = 64 };

static const uint32_t H0[8] = {
	0x6a09e667, 0xbb67ae85, 0x3c6ef372, 0xa54ff53a,
	0x510e527f, 0x9b05688c, 0x1f83d9ab, 0x5be0cd19,
};

static const uint32_t K[64] = {
	0x428a2f98, 0x71374491, 0xb5c0fbcf, 0xe9b5dba5, 0x3956c25b, 0x59f111f1, 0x923f82a4, 0xab1c5ed5,
	0xd807aa98, 0x12835b01, 0x243185be, 0x550c7dc3, 0x72be5d74, 0x80deb1fe, 0x9bdc06a7, 0xc19bf174,
	0xe49b69c1, 0xefbe4786, 0x0fc19dc6, 0x240ca1cc, 0x2de92c6f, 0x4a7484aa, 0x5cb0a9dc, 0x76f988da,
	0x983e5152, 0xa831c66d, 0xb00327c8, 0xbf597fc7, 0xc6e00bf3, 0xd5a79147, 0x06ca6351, 0x14292967,
	0x27b70a85, 0x2e1b2138, 0x4d2c6dfc, 0x53380d13, 0x650a7354, 0x766a0abb, 0x81c2c92e, 0x92722c85,
	0xa2bfe8a1, 0xa81a664b, 0xc24b8b70, 0xc76c51a3, 0xd192e819, 0xd6990624, 0xf40e3585, 0x106aa070,
	0x19a4c116, 0x1e376c08, 0x2748774c, 0x34b0bcb5, 0x391c0cb3, 0x4ed8aa4a, 0x5b9cca4f, 0x682e6ff3,
	0x748f82ee, 0x78a5636f, 0x84c87814, 0x8cc70208, 0x90befffa, 0xa4506ceb, 0xbef9a3f7, 0xc67178f2,
};

static inline uint32_t rotr(uint32_t x, unsigned n)
{
	return x >> n | x << (32 - n);
}

/* A word of the message: compilers make one load and one byte swap of it. */
static inline uint32_t load(const uint8_t *at)
{
	return (uint32_t)at[0] << 24 | (uint32_t)at[1] << 16 | (uint32_t)at[2] << 8 | at[3];
}

static inline void store(uint8_t *at, uint32_t x)
{
	for (int i = 0; i < 4; i++)
		at[i] = (uint8_t)(x >> (24 - 8 * i));
}

#define CH(x, y, z) ((z) ^ ((x) & ((y) ^ (z))))
#define MAJ(x, y, z) (((x) & (y)) | ((z) & ((x) | (y))))
#define SUM0(x) (rotr(x, 2) ^ rotr(x, 13) ^ rotr(x, 22))
#define SUM1(x) (rotr(x, 6) ^ rotr(x, 11) ^ rotr(x, 25))
#define SIGMA0(x) (rotr(x, 7) ^ rotr(x, 18) ^ (x) >> 3)
#define SIGMA1(x) (rotr(x, 17) ^ rotr(x, 19) ^ (x) >> 10)

/* Word t of the schedule, of the message for the first sixteen, otherwise in place of word t - 16. */
#define MESSAGE(t) (w[t] = load(block + 4 * (t)))
#define NEXT(t) \
	(w[(t) & 15] += SIGMA1(w[((t) + 14) & 15]) + w[((t) + 9) & 15] + SIGMA0(w[((t) + 1) & 15]))

/* Instead of moving eight words the next round names them anew. */
#define ROUND(a, b, c, d, e, f, g, h, t, word) \
	do { \
		h += SUM1(e) + CH(e, f, g) + K[t] + word(t); \
		d += h; \
		h += SUM0(a) + MAJ(a, b, c); \
	} while (0)

#define EIGHT(t, word) \
	do { \
		ROUND(a, b, c, d, e, f, g, h, t, word); \
		ROUND(h, a, b, c, d, e, f, g, t + 1, word); \
		ROUND(g, h, a, b, c, d, e, f, t + 2, word); \
		ROUND(f, g, h, a, b, c, d, e, t + 3, word); \
		ROUND(e, f, g, h, a, b, c, d, t + 4, word); \
		ROUND(d, e, f, g, h, a, b, c, t + 5, word); \
		ROUND(c, d, e, f, g, h, a, b, t + 6, word); \
		ROUND(b, c, d, e, f, g, h, a, t + 7, word); \
	} while (0)

static void compress(uint32_t state[8], const uint8_t *block)
{
	uint32_t w[16];
	uint32_t a = state[0], b = state[1], c = state[2], d = state[3];
	uint32_t e = state[4], f = state[5], g = state[6], h = state[7];

	EIGHT(0, MESSAGE);
	EIGHT(8, MESSAGE);
	EIGHT(16, NEXT);
	EIGHT(24, NEXT);
	EIGHT(32, NEXT);
	EIGHT(40, NEXT);
	EIGHT(48, NEXT);
	EIGHT(56, NEXT);

	state[0] += a;
	state[1] += b;
	state[2] += c;
	state[3] += d;
	state[4] += e;
	state[5] += f;
	state[6] += g;
	state[7] += h;
}

void REFERENCE_DIGEST(const uint8_t *bytes, uint64_t length, uint8_t digest[32])
{
	uint8_t last[2 * BLOCK] = { 0 };
	uint64_t done = 0, rest = length % BLOCK;
	uint64_t padded = rest < BLOCK - 8 ? BLOCK : 2 * BLOCK;
	uint32_t state[8];

	memcpy(state, H0, sizeof state);
	for (; length - done >= BLOCK; done += BLOCK)
		compress(state, bytes + done);

	memcpy(last, bytes + done, rest);
	last[rest] = 0x80;
	store(last + padded - 8, (uint32_t)(length >> 29));
	store(last + padded - 4, (uint32_t)(length << 3));
	for (done = 0; done < padded; done += BLOCK)
		compress(state, last + done);

	for (int i = 0; i < 8; i++)
		store(digest + 4 * i, state[i]);
}
