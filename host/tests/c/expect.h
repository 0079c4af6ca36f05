/*
 * What the programs share: an expectation, marks on outputs, and the sizes that the archive expects
 * of the header's structs.
 */

#ifndef EXPECT_H
#define EXPECT_H

#include <thimmorel.h>

#include <stdio.h>
#include <stdlib.h>
#include <string.h>

/* If the condition does not hold, says so and where, and ends the program. */
#define EXPECT(condition) \
	do { \
		if (!(condition)) { \
			fprintf(stderr, "%s:%d: %s\n", __FILE__, __LINE__, #condition); \
			exit(EXIT_FAILURE); \
		} \
	} while (0)

enum { MARKED = 0xa5 };

static inline int is_all(const void *object, size_t length, uint8_t byte)
{
	const uint8_t *bytes = (const uint8_t *)object;
	size_t i;

	for (i = 0; i < length; i++)
		if (bytes[i] != byte)
			return 0;
	return 1;
}

/* An output is marked before a call. Afterwards it is unchanged, or zero, or something else. */
#define MARK(object) memset(&(object), MARKED, sizeof(object))
#define IS_UNCHANGED(object) is_all(&(object), sizeof(object), MARKED)
#define IS_ZERO(object) is_all(&(object), sizeof(object), 0)
#define IS_SAME(one, other) (memcmp(&(one), &(other), sizeof(one)) == 0)

static inline int tells(const struct thimmorel_answer *answer, uint32_t number, uint32_t part,
	uint32_t chunk)
{
	return answer->number == number && answer->part == part && answer->chunk == chunk;
}

/* An array of -1 bytes does not compile. C99 has no other assertion of this kind. */
#define EXPECT_SIZE(name, size) \
	typedef char size_of_##name[sizeof(struct thimmorel_##name) == (size) ? 1 : -1]

EXPECT_SIZE(inputs, 20);
EXPECT_SIZE(loader_inputs, 20);
EXPECT_SIZE(older_inputs, 32);
EXPECT_SIZE(answer, 12);
EXPECT_SIZE(image, 16);
EXPECT_SIZE(span, 16);
EXPECT_SIZE(loader, 24);
EXPECT_SIZE(parts, 48);
EXPECT_SIZE(signature, 64);
EXPECT_SIZE(trust, 20);
EXPECT_SIZE(vendor_numbers, 28);
EXPECT_SIZE(firmware_numbers, 20);
EXPECT_SIZE(record, 64);
EXPECT_SIZE(operation, 12);
EXPECT_SIZE(answers, 24);
EXPECT_SIZE(digests, 64);
EXPECT_SIZE(signatures, 128);

#endif
