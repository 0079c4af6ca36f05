/*
 * The installer's calls and the slot check from C: an install into a slot in memory and, call by
 * call beside it, into one that a driver writes, with calls between that are refused. The exit
 * status is 0 if each call answers as it should. It is also valid C++.
 */

#include "writers.h"

enum { SLOT_LENGTH = 65536, PAGES = SLOT_LENGTH / 4096, OPERATIONS = 1 + PAGES + FILE_LENGTH / 4 };

static const struct thimmorel_inputs inputs = { 100, 2, 3, 1, 1 };
static const struct thimmorel_inputs not_signed = { 100, 2, 3, 0, 1 };

/* The session in memory and its slot, and the one by a driver and its slot. */
static struct thimmorel_record record, planned;
static uint8_t slot[SLOT_LENGTH], driven[SLOT_LENGTH];

/* What they hold before. */
enum { OLD = 7 };

/* The driver. */
static void make(const struct thimmorel_operation *operation)
{
	uint8_t *at = driven + operation->offset;
	int i;

	if (operation->kind == THIMMOREL_OPERATION_ERASE_PAGE)
		memset(at, 255, THIMMOREL_PAGE_SIZE);
	if (operation->kind == THIMMOREL_OPERATION_STORE_WORD)
		for (i = 0; i < 4; i++)
			at[i] = (uint8_t)(operation->word >> 8 * i);
}

/* Whether the operation stores the file's word at its place. */
static int is_store(const struct thimmorel_operation *operation, uint32_t offset)
{
	uint32_t word = 0;
	int i;

	for (i = 0; i < 4; i++)
		word |= (uint32_t)file[offset + i] << 8 * i;
	return operation->kind == THIMMOREL_OPERATION_STORE_WORD && operation->offset == offset
		&& operation->word == word;
}

/* Both forms of the session give the same record and slot, and the slot check gives this answer. */
static void expect_alike(uint32_t boot)
{
	struct thimmorel_answer answer;
	struct thimmorel_image image;

	EXPECT(IS_SAME(record, planned) && IS_SAME(slot, driven));
	EXPECT(thimmorel_check_slot(slot, sizeof slot, &inputs, &answer, &image) == boot);
}

/* Which calls have their turn. */
enum { NONE = 0, ERASE = 1, FILL = 2, CLOSE = 4, CONFIRM = 8 };

/* The calls without a turn answer 19. They leave the record, the slot and every output as it was.
   Answers and operations are written. */
static void expect_turns(int turns, struct thimmorel_record now)
{
	static uint8_t copy[SLOT_LENGTH];
	const struct thimmorel_record before = now;
	struct thimmorel_operation operation;
	struct thimmorel_answers answers;
	struct thimmorel_digests digests;
	struct thimmorel_signatures signatures;
	uint32_t taken;

	memcpy(copy, slot, sizeof slot);
	MARK(taken);
	MARK(digests);
	MARK(operation);
	if (!(turns & ERASE)) {
		EXPECT(thimmorel_erase(&now, copy, sizeof copy) == THIMMOREL_ERROR_TURN);
		EXPECT(thimmorel_plan_erase(&now, copy, sizeof copy, &operation) == THIMMOREL_ERROR_TURN);
		EXPECT(IS_ZERO(operation));
	}
	MARK(operation);
	if (!(turns & FILL)) {
		EXPECT(thimmorel_fill(&now, file, 4, copy, sizeof copy, &taken) == THIMMOREL_ERROR_TURN);
		EXPECT(thimmorel_plan_fill(&now, file, 4, copy, sizeof copy, &taken, &operation)
			== THIMMOREL_ERROR_TURN);
		EXPECT(IS_ZERO(operation) && IS_UNCHANGED(taken));
	}
	MARK(operation);
	if (!(turns & CLOSE)) {
		EXPECT(thimmorel_ask(&now, copy, sizeof copy, &answers, &digests) == THIMMOREL_ERROR_TURN);
		EXPECT(tells(&answers.vendor, 19, 0, 0) && tells(&answers.firmware, 19, 0, 0));
		thimmorel_find_signatures(&now, copy, sizeof copy, &signatures);
		EXPECT(IS_UNCHANGED(digests) && IS_ZERO(signatures));
		MARK(answers);
		EXPECT(thimmorel_close(&now, copy, sizeof copy, &inputs, &answers.vendor)
			== THIMMOREL_ERROR_TURN);
		EXPECT(thimmorel_plan_close(&now, copy, sizeof copy, &inputs, &answers.firmware, &operation)
			== THIMMOREL_ERROR_TURN);
		EXPECT(tells(&answers.vendor, 19, 0, 0) && tells(&answers.firmware, 19, 0, 0));
		EXPECT(IS_ZERO(operation));
	}
	if (!(turns & CONFIRM))
		EXPECT(thimmorel_confirm(&now, copy, sizeof copy) == THIMMOREL_ERROR_TURN);
	EXPECT(IS_SAME(now, before) && IS_SAME(copy, slot));
}

/* A refused begin gives a session that is over. The reserved words are marked, and stay so. */
static void begin(void)
{
	memset(slot, OLD, sizeof slot);
	memset(driven, OLD, sizeof driven);
	MARK(record);
	EXPECT(thimmorel_begin(slot, sizeof slot - 1, 0, &record) == THIMMOREL_ERROR_SLOT_LENGTH);
	EXPECT(IS_ZERO(record));
	MARK(record);
	EXPECT(thimmorel_begin(slot, sizeof slot, 1536, &record) == THIMMOREL_ERROR_FILE_LENGTH);
	EXPECT(IS_ZERO(record));
	expect_turns(NONE, record);

	MARK(record);
	EXPECT(thimmorel_begin(slot, sizeof slot, sizeof file, &record) == THIMMOREL_OK);
	EXPECT(record.phase == 1 && record.slot_length == SLOT_LENGTH);
	EXPECT(record.file_length == FILE_LENGTH && is_all(&record.pages_erased, 13 * 4, 0));
	MARK(record.reserved);
	planned = record;
	expect_turns(ERASE, record);
}

/* The first erase stores zero in the first word, whatever stands there. */
static void erase(void)
{
	struct thimmorel_operation operation;
	uint32_t page;

	EXPECT(thimmorel_erase(&record, slot, sizeof slot) == THIMMOREL_OK);
	EXPECT(thimmorel_plan_erase(&planned, driven, sizeof driven, &operation) == THIMMOREL_OK);
	EXPECT(operation.kind == THIMMOREL_OPERATION_STORE_WORD);
	EXPECT(operation.offset == 0 && operation.word == 0);
	make(&operation);
	EXPECT(is_all(slot, 4, 0) && is_all(slot + 4, sizeof slot - 4, OLD));
	EXPECT(record.pages_erased == 0 && record.operations == 1);
	expect_alike(THIMMOREL_ERROR_VENDOR_MAGIC);
	expect_turns(ERASE, record);
	for (page = 0; page < PAGES; page++) {
		EXPECT(thimmorel_erase(&record, slot, sizeof slot) == THIMMOREL_OK);
		EXPECT(thimmorel_plan_erase(&planned, driven, sizeof driven, &operation) == THIMMOREL_OK);
		EXPECT(operation.kind == THIMMOREL_OPERATION_ERASE_PAGE);
		EXPECT(operation.offset == page * THIMMOREL_PAGE_SIZE && operation.word == 0);
		make(&operation);
		expect_alike(THIMMOREL_ERROR_VENDOR_MAGIC);
	}
	EXPECT(record.pages_erased == PAGES && record.operations == 1 + PAGES);
	EXPECT(is_all(slot, sizeof slot, 255));
	expect_turns(FILL, record);
}

/* A word that is to be stored over one that is not erased. None of the piece is taken. */
static void expect_not_erased(void)
{
	struct thimmorel_record before = record, now = record;
	struct thimmorel_operation operation;
	uint32_t taken;

	MARK(taken);
	slot[record.bytes_taken] = 254;
	EXPECT(thimmorel_fill(&now, file, 4, slot, sizeof slot, &taken) == THIMMOREL_ERROR_NOT_ERASED);
	EXPECT(thimmorel_plan_fill(&now, file, 4, slot, sizeof slot, &taken, &operation)
		== THIMMOREL_ERROR_NOT_ERASED);
	EXPECT(IS_ZERO(operation) && IS_UNCHANGED(taken) && IS_SAME(now, before));
	slot[record.bytes_taken] = 255;
}

/* Pieces of 3 bytes and of 1, so that each word takes two calls. The first word is not stored. */
static void fill(void)
{
	struct thimmorel_operation operation;
	uint32_t given = 0, taken, taken_too;

	while (given < FILE_LENGTH) {
		uint32_t length = given % 4 == 0 ? 3 : 1;

		EXPECT(thimmorel_fill(&record, file + given, length, slot, sizeof slot, &taken)
			== THIMMOREL_OK);
		EXPECT(thimmorel_plan_fill(&planned, file + given, length, driven, sizeof driven,
			&taken_too, &operation) == THIMMOREL_OK);
		EXPECT(taken == length && taken_too == length);
		given += length;
		EXPECT(given % 4 == 0 && given > 4 ? is_store(&operation, given - 4) : IS_ZERO(operation));
		make(&operation);
		expect_alike(THIMMOREL_ERROR_VENDOR_MAGIC);
		if (given == 8)
			expect_not_erased();
	}
	EXPECT(record.bytes_taken == FILE_LENGTH && record.operations == OPERATIONS - 1);
	EXPECT(memcmp(slot + 4, file + 4, FILE_LENGTH - 4) == 0);

	/* After the end of the file, no byte is taken. */
	EXPECT(thimmorel_fill(&record, file, 4, slot, sizeof slot, &taken) == THIMMOREL_OK);
	EXPECT(thimmorel_plan_fill(&planned, NULL, 0, driven, sizeof driven, &taken_too, &operation)
		== THIMMOREL_OK);
	EXPECT(taken == 0 && taken_too == 0 && IS_ZERO(operation));
	expect_alike(THIMMOREL_ERROR_VENDOR_MAGIC);
	expect_turns(FILL | CLOSE, record);
}

/* Digests and signatures are those of the file. */
static void ask(void)
{
	struct thimmorel_answers answers;
	struct thimmorel_answer answer;
	struct thimmorel_digests digests, of_file;
	struct thimmorel_signatures signatures, in_file;

	EXPECT(thimmorel_ask(&record, slot, sizeof slot, &answers, &digests) == THIMMOREL_OK);
	EXPECT(thimmorel_vendor_digest(file, sizeof file, &answer, of_file.vendor) == THIMMOREL_OK);
	EXPECT(thimmorel_firmware_digest(file, sizeof file, &answer, of_file.firmware) == THIMMOREL_OK);
	EXPECT(IS_ZERO(answers) && IS_SAME(digests, of_file));
	thimmorel_find_signatures(&record, slot, sizeof slot, &signatures);
	thimmorel_find_vendor_signature(file, sizeof file, &in_file.vendor);
	thimmorel_find_firmware_signature(file, sizeof file, &in_file.firmware);
	EXPECT(IS_SAME(signatures, in_file) && signatures.vendor.sig.start == V - 64);

	/* A shape that is refused: the call succeeds, its digest is zero, and nothing is found. */
	slot[V] ^= 1;
	EXPECT(thimmorel_ask(&record, slot, sizeof slot, &answers, &digests) == THIMMOREL_OK);
	EXPECT(IS_ZERO(answers.vendor));
	EXPECT(tells(&answers.firmware, THIMMOREL_ERROR_FIRMWARE_MAGIC, 2, 0));
	EXPECT(IS_SAME(digests.vendor, of_file.vendor) && IS_ZERO(digests.firmware));
	thimmorel_find_signatures(&record, slot, sizeof slot, &signatures);
	EXPECT(IS_SAME(signatures.vendor, in_file.vendor) && IS_ZERO(signatures.firmware));
	slot[V] ^= 1;
}

/* With any of its first six words changed, the record is inconsistent. */
static void expect_inconsistent(void)
{
	struct thimmorel_record now;
	uint32_t words[THIMMOREL_RECORD_SIZE / sizeof(uint32_t)];
	int i;

	for (i = 0; i < 6; i++) {
		memcpy(words, &record, sizeof words);
		words[i]++;
		memcpy(&now, words, sizeof words);
		expect_turns(NONE, now);
	}
}

/* A first word that is not erased leaves the session open. A refusal of the check ends it. */
static void expect_refused_closes(void)
{
	struct thimmorel_record now = record, also = record, ended = record;
	struct thimmorel_operation operation;
	struct thimmorel_answer answer, answer_too;

	slot[3] = 254;
	MARK(operation);
	EXPECT(thimmorel_close(&now, slot, sizeof slot, &not_signed, &answer)
		== THIMMOREL_ERROR_NOT_ERASED);
	EXPECT(thimmorel_plan_close(&also, slot, sizeof slot, &not_signed, &answer_too, &operation)
		== THIMMOREL_ERROR_NOT_ERASED);
	EXPECT(tells(&answer, 23, 0, 0) && tells(&answer_too, 23, 0, 0) && IS_ZERO(operation));
	EXPECT(IS_SAME(now, record) && IS_SAME(also, record));
	memset(slot, 0, 4);
	EXPECT(thimmorel_close(&now, slot, sizeof slot, &inputs, &answer) == THIMMOREL_ERROR_NOT_ERASED);
	memset(slot, 255, 4);

	ended.phase = 0;
	MARK(operation);
	EXPECT(thimmorel_close(&now, slot, sizeof slot, &not_signed, &answer)
		== THIMMOREL_ERROR_VERDICT);
	EXPECT(thimmorel_plan_close(&also, slot, sizeof slot, &not_signed, &answer_too, &operation)
		== THIMMOREL_ERROR_VERDICT);
	EXPECT(tells(&answer, 9, 1, 0) && tells(&answer_too, 9, 1, 0) && IS_ZERO(operation));
	EXPECT(IS_SAME(now, ended) && IS_SAME(also, ended));
	expect_turns(NONE, ended);
	expect_alike(THIMMOREL_ERROR_VENDOR_MAGIC);
}

static void finish_in_memory(void)
{
	struct thimmorel_answer answer;

	MARK(answer);
	EXPECT(thimmorel_close(&record, slot, sizeof slot, &inputs, &answer) == THIMMOREL_OK);
	EXPECT(IS_ZERO(answer) && record.phase == 0 && record.operations == OPERATIONS);
	EXPECT(memcmp(slot, file, sizeof file) == 0);
	EXPECT(is_all(slot + sizeof file, sizeof slot - sizeof file, 255));
	expect_turns(NONE, record);
}

/* The close is not Done: the first word is stored after it, and then the slot is confirmed. */
static void finish_by_driver(void)
{
	struct thimmorel_record accepted;
	struct thimmorel_operation operation;
	struct thimmorel_answer answer;

	MARK(answer);
	EXPECT(thimmorel_plan_close(&planned, driven, sizeof driven, &inputs, &answer, &operation)
		== THIMMOREL_OK);
	EXPECT(IS_ZERO(answer) && is_store(&operation, 0));
	EXPECT(planned.phase == 2 && planned.operations == OPERATIONS);
	accepted = planned;
	expect_turns(CONFIRM, accepted);
	EXPECT(thimmorel_confirm(&planned, driven, sizeof driven - 4096) == THIMMOREL_ERROR_TURN);
	EXPECT(thimmorel_confirm(&planned, driven, sizeof driven) == THIMMOREL_ERROR_NOT_LANDED);
	EXPECT(IS_SAME(planned, accepted));
	make(&operation);
	EXPECT(thimmorel_confirm(&planned, driven, sizeof driven) == THIMMOREL_OK);
	expect_alike(THIMMOREL_OK);
}

int main(void)
{
	write_image();
	begin();
	erase();
	fill();
	ask();
	expect_inconsistent();
	expect_refused_closes();
	finish_in_memory();
	finish_by_driver();
	EXPECT(OPERATIONS == 402 && IS_UNCHANGED(record.reserved));
	return EXIT_SUCCESS;
}
