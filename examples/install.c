/*
 * An install on a board, from begin to Done: a driver writes the flash and can fail, and a chip
 * verifies the signatures. Start to read at install(); boot() is what runs at each start.
 *
 * main() makes the driver fail at each operation in turn. After a failure the slot holds the old
 * image or is refused with 1, and the next install is Done. The exit status is 0 if that is so;
 * otherwise it is 1, and the first EXPECT that does not hold is printed. It is valid C99 and C++:
 *
 *     mkdir -p target
 *     gcc -std=c99 -Iinclude examples/install.c crates/thimmorel/out/libthimmorel.a -o target/install
 */

#include <thimmorel.h>

#include <stdio.h>
#include <string.h>

enum {
	SLOT_LENGTH = 16384, PAGES = SLOT_LENGTH / THIMMOREL_PAGE_SIZE,
	VENDOR_LENGTH = 512, CODE_START = VENDOR_LENGTH + THIMMOREL_FIRMWARE_HEADER_SIZE,
	CODE_LENGTH = 3000, FILE_LENGTH = CODE_START + CODE_LENGTH,
	OPERATIONS = 1 + PAGES + FILE_LENGTH / THIMMOREL_WORD_SIZE
};

/* The flash. The program reads it in place through `slot`, and only the driver writes it. */
static uint8_t flash[SLOT_LENGTH];
static const uint8_t *const slot = flash;

/* The driver fails at operation number `fail_in`, counted from now. At 0 it does not fail. */
enum { DRIVER_OK = 0, DRIVER_FAILED = 1 };
static uint32_t fail_in;

/* An erase that fails may leave any words of the page erased: here, those of its second half. */
static int erase_page(uint32_t offset)
{
	const uint32_t half = THIMMOREL_PAGE_SIZE / 2;

	memset(flash + offset + half, 0xff, half);
	if (fail_in != 0 && --fail_in == 0)
		return DRIVER_FAILED;
	memset(flash + offset, 0xff, half);
	return DRIVER_OK;
}

/* The first byte is in the low 8 bits. A store only clears bits: the word there must be erased,
   unless zero is stored. */
static int store_word(uint32_t offset, uint32_t word)
{
	uint32_t i;

	if (fail_in != 0 && --fail_in == 0)
		return DRIVER_FAILED;
	for (i = 0; i < THIMMOREL_WORD_SIZE; i++)
		flash[offset + i] &= (uint8_t)(word >> 8 * i);
	return DRIVER_OK;
}

/* Whether byte number i of what the operation wrote stands in the slot. */
static int stands(const struct thimmorel_operation *operation, uint32_t i)
{
	uint32_t word = operation->kind == THIMMOREL_OPERATION_ERASE_PAGE ? 0xffffffff : operation->word;

	return slot[operation->offset + i] == (uint8_t)(word >> 8 * (i % THIMMOREL_WORD_SIZE));
}

/* Make the operation that a call hands back, and read it back: a driver may say that it made what
   it did not. A refused call hands back nothing to make. */
static int make(const struct thimmorel_operation *operation)
{
	uint32_t i, length = 0;
	int error = DRIVER_OK;

	if (operation->kind == THIMMOREL_OPERATION_ERASE_PAGE) {
		error = erase_page(operation->offset);
		length = THIMMOREL_PAGE_SIZE;
	} else if (operation->kind == THIMMOREL_OPERATION_STORE_WORD) {
		error = store_word(operation->offset, operation->word);
		length = THIMMOREL_WORD_SIZE;
	}
	for (i = 0; i < length && error == DRIVER_OK; i++)
		error = stands(operation, i) ? DRIVER_OK : DRIVER_FAILED;
	return error;
}

/* The board's own keys for vendor headers, of which exactly 2 of 3 must sign, and the time. */
static const uint8_t board_keys[3 * THIMMOREL_KEY_SIZE] = { 1 };
enum { BOARD_M = 2, BOARD_N = 3, NOW = 1000 };

/* This takes the place of the chip. A chip verifies that the keys named by the sigmask signed the
   digest. This function only looks whether the signature starts with the digest. */
static uint32_t verify(const uint8_t *digest, uint8_t sigmask, const uint8_t *sig,
	const uint8_t *keys)
{
	(void)sigmask, (void)keys;
	return memcmp(sig, digest, THIMMOREL_DIGEST_SIZE) == 0 ? THIMMOREL_YES : 0;
}

/* What the chip is asked about an image. */
struct question {
	struct thimmorel_answers answers;
	struct thimmorel_digests digests;
	struct thimmorel_signatures signatures;
};

/* The chip's verdicts, with the other inputs of a check. A header whose digest is refused has no
   signature: the chip is not asked, and the verdict is no. */
static struct thimmorel_inputs ask_chip(const struct question *q)
{
	const struct thimmorel_signature *vendor = &q->signatures.vendor;
	const struct thimmorel_signature *firmware = &q->signatures.firmware;
	struct thimmorel_inputs inputs = { NOW, BOARD_M, BOARD_N, 0, 0 };

	if (q->answers.vendor.number == THIMMOREL_OK)
		inputs.vendor_verdict = verify(q->digests.vendor, slot[vendor->sigmask.start],
			slot + vendor->sig.start, board_keys);
	if (q->answers.firmware.number == THIMMOREL_OK)
		inputs.firmware_verdict = verify(q->digests.firmware, slot[firmware->sigmask.start],
			slot + firmware->sig.start, slot + firmware->keys.start);
	return inputs;
}

/* At each start: check the slot. The firmware may be started only if the answer is 0. */
static uint32_t boot(struct thimmorel_image *image)
{
	struct question q;
	struct thimmorel_inputs inputs;
	struct thimmorel_answer answer;

	thimmorel_vendor_digest(slot, SLOT_LENGTH, &q.answers.vendor, q.digests.vendor);
	thimmorel_firmware_digest(slot, SLOT_LENGTH, &q.answers.firmware, q.digests.firmware);
	thimmorel_find_vendor_signature(slot, SLOT_LENGTH, &q.signatures.vendor);
	thimmorel_find_firmware_signature(slot, SLOT_LENGTH, &q.signatures.firmware);
	inputs = ask_chip(&q);
	return thimmorel_check_slot(slot, SLOT_LENGTH, &inputs, &answer, image);
}

/* How an install ended: DONE, or the step that failed, with the refusal or the driver's error. */
enum step { BEGIN, ERASE, FILL, ASK, CLOSE, CONFIRM, DONE };

struct report {
	enum step step;
	uint32_t refusal;
	int driver_error;
};

/* After a call that plans: make the operation, before the next call. Tell whether to go on. */
static int go_on(struct report *report, enum step step, uint32_t refusal,
	const struct thimmorel_operation *operation)
{
	report->step = step;
	report->refusal = refusal;
	report->driver_error = make(operation);
	return refusal == THIMMOREL_OK && report->driver_error == DRIVER_OK;
}

/* Take one piece of the file. A call takes 0 to 4 bytes of it, and plans at most one store. It
   takes 0 if the piece is used up, or if the file is complete and the piece has too many bytes. */
static int fill(struct thimmorel_record *record, const uint8_t *piece, uint64_t length,
	struct report *report)
{
	struct thimmorel_operation operation;
	uint32_t refusal, taken = 0;

	do {
		piece += taken;
		length -= taken;
		refusal = thimmorel_plan_fill(record, piece, length, slot, SLOT_LENGTH, &taken, &operation);
		if (!go_on(report, FILL, refusal, &operation))
			return 0;
	} while (taken != 0);
	return 1;
}

/* Any failure ends the install and drops its record, which is a local variable. The next install
   begins again. Done is the 0 of thimmorel_confirm(), and no other answer. */
static struct report install(const uint8_t *file)
{
	struct report report = { BEGIN, THIMMOREL_OK, DRIVER_OK };
	struct thimmorel_record record;
	struct thimmorel_operation operation;
	struct thimmorel_inputs inputs;
	struct thimmorel_answer answer;
	struct question q;
	uint32_t refusal, given, length = 1;

	report.refusal = thimmorel_begin(slot, SLOT_LENGTH, FILE_LENGTH, &record);
	if (report.refusal != THIMMOREL_OK)
		return report;

	/* The first call plans a store of zero over the old first word, and the others the erases. From
	   then until the end, boot() refuses the slot with 1. */
	while (record.pages_erased < PAGES) {
		refusal = thimmorel_plan_erase(&record, slot, SLOT_LENGTH, &operation);
		if (!go_on(&report, ERASE, refusal, &operation))
			return report;
	}

	/* The file comes in pieces of any lengths. Here these are 1, 3, 5 to 63 bytes, then 1 again. */
	for (given = 0; given < FILE_LENGTH; given += length, length = (length + 2) % 64) {
		length = length < FILE_LENGTH - given ? length : FILE_LENGTH - given;
		if (!fill(&record, file + given, length, &report))
			return report;
	}

	/* The file is in the slot except for its first word, which is in the record. */
	report.step = ASK;
	report.refusal = thimmorel_ask(&record, slot, SLOT_LENGTH, &q.answers, &q.digests);
	if (report.refusal != THIMMOREL_OK)
		return report;
	thimmorel_find_signatures(&record, slot, SLOT_LENGTH, &q.signatures);
	inputs = ask_chip(&q);

	/* If the file is accepted, the operation is the last one: it stores the first word. */
	refusal = thimmorel_plan_close(&record, slot, SLOT_LENGTH, &inputs, &answer, &operation);
	if (!go_on(&report, CLOSE, refusal, &operation))
		return report;
	report.refusal = thimmorel_confirm(&record, slot, SLOT_LENGTH);
	report.step = report.refusal == THIMMOREL_OK ? DONE : CONFIRM;
	return report;
}

/* Write an image. The headers are written first for their digests, and then with signatures. */
static uint32_t write_image(uint8_t *file, uint32_t version)
{
	static const uint8_t keys[2 * THIMMOREL_KEY_SIZE] = { 2 }, name[3] = { 'A', 'n', 'n' };
	struct thimmorel_vendor_numbers vendor = { 0, 1, 0, 1, 2, 0xffff, 0x03 };
	struct thimmorel_firmware_numbers firmware = { VENDOR_LENGTH, 0, version, version, 0x01 };
	uint8_t vendor_sig[THIMMOREL_SIG_SIZE] = { 0 }, firmware_sig[THIMMOREL_SIG_SIZE] = { 0 };
	struct thimmorel_answer answer;
	uint32_t i, written, refusal = 0;

	for (i = 0; i < CODE_LENGTH; i++)
		file[CODE_START + i] = (uint8_t)(7 * i + version);
	for (i = 0; i < 2 && refusal == 0; i++) {
		refusal |= thimmorel_write_vendor(&vendor, keys, sizeof keys, name, sizeof name, NULL, 0,
			vendor_sig, file, VENDOR_LENGTH, &written);
		/* The output must not overlap the code, so it ends where the code starts. */
		refusal |= thimmorel_write_firmware(&firmware, file + CODE_START, CODE_LENGTH, firmware_sig,
			file + VENDOR_LENGTH, THIMMOREL_FIRMWARE_HEADER_SIZE, &written);
		refusal |= thimmorel_vendor_digest(file, FILE_LENGTH, &answer, vendor_sig);
		refusal |= thimmorel_firmware_digest(file, FILE_LENGTH, &answer, firmware_sig);
	}
	return refusal;
}

#define EXPECT(condition) \
	do { \
		if (!(condition)) { \
			fprintf(stderr, "%s:%d: %s\n", __FILE__, __LINE__, #condition); \
			return 1; \
		} \
	} while (0)

int main(void)
{
	static uint8_t files[2][FILE_LENGTH];
	struct thimmorel_image image;
	struct report report;
	uint32_t n;

	/* Two images, of version 0 and 1. The install of one has exactly OPERATIONS operations. */
	EXPECT(write_image(files[0], 0) == THIMMOREL_OK && write_image(files[1], 1) == THIMMOREL_OK);
	fail_in = OPERATIONS + 1;
	EXPECT(install(files[0]).step == DONE && fail_in == 1);
	EXPECT(boot(&image) == THIMMOREL_OK && image.version == 0);

	/* Install the version that is not in the slot, fail at operation n, and install it again. */
	for (n = 1; n <= OPERATIONS; n++) {
		fail_in = n;
		report = install(files[n % 2]);
		EXPECT(report.step == (n <= 1 + PAGES ? ERASE : n < OPERATIONS ? FILL : CLOSE));
		EXPECT(report.refusal == THIMMOREL_OK && report.driver_error == DRIVER_FAILED);
		if (n == 1)
			EXPECT(boot(&image) == THIMMOREL_OK && image.version == 0);
		else
			EXPECT(boot(&image) == THIMMOREL_ERROR_VENDOR_MAGIC);
		EXPECT(install(files[n % 2]).step == DONE);
		EXPECT(boot(&image) == THIMMOREL_OK && image.version == n % 2);
	}

	/* A file with another signature is refused by the close. */
	files[0][VENDOR_LENGTH - THIMMOREL_SIG_SIZE] ^= 1;
	EXPECT(install(files[0]).refusal == THIMMOREL_ERROR_VERDICT);
	EXPECT(boot(&image) == THIMMOREL_ERROR_VENDOR_MAGIC);
	return 0;
}
