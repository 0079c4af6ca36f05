/*
 * The digests at the edges of memory: bytes that begin where a page begins, and bytes that end where
 * one ends. The pages before and behind may not be read, so that a byte read before the former or
 * behind the latter ends the program by a signal. The exit status is 0 if each digest is that of
 * the same bytes in the middle of a buffer. It is also valid C++.
 */

#define _DEFAULT_SOURCE

#include "expect.h"

#include <sys/mman.h>
#include <unistd.h>

enum { LONGEST = 1100, INSIDE = 13 };

static uint8_t message[INSIDE + LONGEST + INSIDE];

/* A page of its own, between two that may not be read. */
static uint8_t *alone(size_t size)
{
	void *pages = mmap(NULL, 3 * size, PROT_NONE, MAP_PRIVATE | MAP_ANONYMOUS, -1, 0);
	uint8_t *page;

	EXPECT(pages != MAP_FAILED);
	page = (uint8_t *)pages + size;
	EXPECT(mprotect(page, size, PROT_READ | PROT_WRITE) == 0);
	return page;
}

typedef void digest_call(const uint8_t *bytes, uint64_t length, uint8_t digest[32]);

static void expect_same_digest(digest_call *digest_of, const uint8_t *at, size_t length)
{
	uint8_t digest[32], expected[32];

	digest_of(at, length, digest);
	digest_of(message + INSIDE, length, expected);
	EXPECT(IS_SAME(digest, expected));
}

static void expect_same_digests(uint8_t *at, size_t length)
{
	memcpy(at, message + INSIDE, length);
	expect_same_digest(thimmorel_digest, at, length);
	expect_same_digest(thimmorel_sha256, at, length);
}

int main(void)
{
	size_t size = (size_t)sysconf(_SC_PAGESIZE);
	uint8_t *page = alone(size);
	size_t i;

	for (i = 0; i < sizeof message; i++)
		message[i] = (uint8_t)(i * 2654435761u >> 24);
	for (i = 0; i <= LONGEST; i++) {
		expect_same_digests(page, i);
		expect_same_digests(page + size - i, i);
	}
	return EXIT_SUCCESS;
}
