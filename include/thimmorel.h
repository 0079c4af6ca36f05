/*
 * The interface of libthimmorel.a, for C99 and C++. This file documents each call in full.
 *
 * Each call is proved equal to a definition, in crates/abi/specs, crates/abi_session/specs and the
 * specs of the crates below them. The comments here retell these definitions, and nothing checks
 * that they do.
 * docs/PROMISES.md lists the statements that are proved, and docs/TRUST.md what is assumed.
 */

#ifndef THIMMOREL_H
#define THIMMOREL_H

#include <stdint.h>

#ifdef __cplusplus
extern "C" {
#endif

/** \file thimmorel.h
 *
 * # Thimmorel
 *
 * The library is for a pocket signer with one flash slot. It checks a firmware image, in a file or
 * in the slot; it writes the two headers of an image; and it installs an image into the slot. It
 * also checks a loader, on a memory card or in the internal area, and chooses the one to run. Its
 * digest is BLAKE2s (RFC 7693) with no key and 32 bytes of output. It does not verify signatures: a
 * chip does, and its verdicts are inputs to a check.
 *
 * It also checks the firmware of the older single-chip model, whose digest is SHA-256 (FIPS 180-4).
 *
 * ## Linking
 *
 * `rt lib --cpu x86-64`, in the folder crates/thimmorel, writes `out/libthimmorel.a` there, for
 * x86-64 Linux. A program includes this header and links the archive, which needs `memcpy` and
 * `memset` of the C library and nothing else. The header has no type whose size depends on the
 * machine: the length of a slice and the places in it are `uint64_t`, and so are the numbers in a
 * struct with places; all other numbers are `uint32_t`.
 *
 * ## Memory
 *
 * The library allocates nothing: it uses no heap and has no globals. It keeps no pointer after a
 * call returns. Every call is reentrant, and threads need no lock.
 *
 * ## Buffers
 *
 *  - A slice is passed as a pointer to its first byte and its length in bytes. Any length is
 *    allowed and gets an answer.
 *
 *  - A slice of length 0 may have any pointer, including `NULL`. Nothing is read through it.
 *
 *  - A struct or an array of fixed size is passed by a pointer, which must not be `NULL`. Any words
 *    in it are allowed and get an answer.
 *
 *  - Bytes need no alignment. Structs and arrays are aligned as C requires.
 *
 *  - What a call writes must not overlap anything else that is passed to it, and nothing else may
 *    write to its buffers during the call. What is only read may overlap.
 *
 * ## Answers
 *
 * A call that can refuse returns a number: 0 is success, and `enum thimmorel_error` lists the rest.
 * Some calls tell more than a number: where a check found the fault (`struct thimmorel_answer`),
 * which operation of the flash is next (`struct thimmorel_operation`), or which loader to run
 * (`struct thimmorel_loader`). These are always written, and are part of the answer.
 *
 * Everything else that a call writes is an output. After a refused call every slot byte, the record
 * and every output are as they were, with two exceptions: a refused thimmorel_begin() writes its
 * record, and a close that the check refuses ends the session.
 *
 * ## The image
 *
 * An image is a vendor header of v bytes, a firmware header of 1,024 bytes, and code. Integers are
 * little-endian. A time is an unsigned 32-bit number, on the same scale as the expiries.
 *
 * The vendor header:
 *
 * | offset | length | field |
 * |---|---|---|
 * | 0 | 4 | `TRZV` |
 * | 4 | 4 | its length v: a multiple of 512, from 512 to 65,536 |
 * | 8 | 4 | expiry; 0 means never |
 * | 12, 13 | 1 each | major and minor version |
 * | 14, 15 | 1 each | vsig_m and vsig_n: exactly vsig_m of the vsig_n keys sign firmware |
 * | 16 | 2 | vtrust, see thimmorel_read_trust() |
 * | 18 | 14 | zero |
 * | 32 | 32 * vsig_n | keys |
 * | then | 1 | length of the string |
 * | then | 0 to 255 | string |
 * | then | 0 to 3 | zero, up to the next offset that is a multiple of 4: the picture's start |
 * | then | up to v - 65 | picture area: opaque bytes |
 * | v - 65 | 1 | sigmask: bit i says that key i signed |
 * | v - 64 | 64 | sig |
 *
 * The firmware header:
 *
 * | offset | length | field |
 * |---|---|---|
 * | 0 | 4 | `TRZF` |
 * | 4 | 4 | its length, 1,024 |
 * | 8 | 4 | expiry; 0 means never |
 * | 12 | 4 | code length |
 * | 16 | 4 | version: major, minor, patch, build |
 * | 20 | 4 | fix version, likewise |
 * | 24 | 8 | zero |
 * | 32 | 16 * 32 | hashes 1 to 16 |
 * | 544 | 415 | zero |
 * | 959 | 1 | sigmask |
 * | 960 | 64 | sig |
 *
 * Code fills the chunks in order. Chunk 1 has room for 131,072 - 1,024 - v bytes, chunks 2 to 16
 * for 131,072 each; the last chunk in use may be partly filled. Hash k is the digest of the code in
 * chunk k, or all zero if chunk k holds none.
 *
 * The loader, which is the second stage of the boot code, and the firmware of the older model have
 * images of their own, without a vendor header. See "Loaders" and "The older model" below.
 */

/** The version of this interface. */
#define THIMMOREL_VERSION "0.6.0"
#define THIMMOREL_VERSION_MAJOR 0
#define THIMMOREL_VERSION_MINOR 6
#define THIMMOREL_VERSION_PATCH 0

/** Sizes in bytes. */
#define THIMMOREL_DIGEST_SIZE 32u
#define THIMMOREL_KEY_SIZE 32u
#define THIMMOREL_SIG_SIZE 64u
#define THIMMOREL_FIRMWARE_HEADER_SIZE 1024u
#define THIMMOREL_VENDOR_HEADER_MIN 512u
#define THIMMOREL_VENDOR_HEADER_MAX 65536u
#define THIMMOREL_LOADER_HEADER_SIZE 1024u
#define THIMMOREL_LOADER_CODE_MAX 130048u
#define THIMMOREL_LOADER_MAX 131072u
#define THIMMOREL_LEGACY_HEADER_SIZE 256u
#define THIMMOREL_V2_HEADER_SIZE 1024u
#define THIMMOREL_V2_CODE_MAX 2095872u
#define THIMMOREL_PAGE_SIZE 4096u
#define THIMMOREL_WORD_SIZE 4u
#define THIMMOREL_SLOT_MAX 2097152u
#define THIMMOREL_FILE_MIN 1540u
#define THIMMOREL_RECORD_SIZE 64u

/** How many keys the key sheet of the older model may have. */
#define THIMMOREL_OLDER_KEYS_MIN 3u
#define THIMMOREL_OLDER_KEYS_MAX 255u

/** Where the three key indexes and the three signatures are in each header of the older model, in
    bytes from that header's start. An index is 1 byte, and a signature THIMMOREL_SIG_SIZE bytes. */
#define THIMMOREL_LEGACY_INDEXES 8u
#define THIMMOREL_LEGACY_SIGNATURES 64u
#define THIMMOREL_V2_SIGNATURES 544u
#define THIMMOREL_V2_INDEXES 736u

/** A verdict that is yes. Any other word is no. */
#define THIMMOREL_YES 1u

/** A firmware version as one word, as the check tells it and the writer takes it. */
#define THIMMOREL_FIRMWARE_VERSION(major, minor, patch, build) \
	((uint32_t)(major) | (uint32_t)(minor) << 8 | (uint32_t)(patch) << 16 | (uint32_t)(build) << 24)

/** \brief What the calls return. Each number has one meaning in all calls. */
enum thimmorel_error {
	/** Success. */
	THIMMOREL_OK = 0,
	/** The bytes do not start with `TRZV`, for a loader with `TRZB`, or for a pair of the older
	    model with `TRZR`. */
	THIMMOREL_ERROR_VENDOR_MAGIC = 1,
	/** The bytes end before this part of the image does. */
	THIMMOREL_ERROR_TOO_SHORT = 2,
	/** The length of the vendor header is not a multiple of 512 from 512 to 65,536. */
	THIMMOREL_ERROR_VENDOR_LENGTH = 3,
	/** The vendor header's key numbers are not 1 <= vsig_m <= vsig_n <= 8. */
	THIMMOREL_ERROR_VENDOR_KEYS = 4,
	/** The vendor string leaves no room for the signature. */
	THIMMOREL_ERROR_STRING_LENGTH = 5,
	/** A byte of the header that must be zero is not. */
	THIMMOREL_ERROR_NOT_ZERO = 6,
	/** The time is later than the header's expiry. */
	THIMMOREL_ERROR_EXPIRED = 7,
	/** The sigmask names a key index of n or above, or does not name exactly m keys; in the older
	    model, a key index is 0 or above the number of keys, or two are equal. */
	THIMMOREL_ERROR_SIGMASK = 8,
	/** The verdict on the header's signature is no, or in the older model on one of its three. */
	THIMMOREL_ERROR_VERDICT = 9,
	/** The firmware header, or the V2 header, does not start with `TRZF`. */
	THIMMOREL_ERROR_FIRMWARE_MAGIC = 10,
	/** The firmware header, a loader's or the V2 header does not give its length as 1,024. */
	THIMMOREL_ERROR_FIRMWARE_LENGTH = 11,
	/** The code length is 0, not a multiple of 4, or more than an image holds; in the legacy header
	    it is under 1,028, or that of the V2 header behind it is not 1,024 less. */
	THIMMOREL_ERROR_CODE_LENGTH = 12,
	/** Bytes follow the code: any byte in a file, a byte other than 255 in a slot or the internal
	    area, a byte other than 0 on a card. */
	THIMMOREL_ERROR_BYTES_FOLLOW = 13,
	/** The code in a chunk does not have the digest that its header gives. */
	THIMMOREL_ERROR_CHUNK_HASH = 14,
	/** The hash of a chunk without code is not all zero. */
	THIMMOREL_ERROR_UNUSED_HASH = 15,
	/** The caller's key policy is not 1 <= m <= n <= 8, or the older model's key sheet does not
	    have 3 to 255 keys. */
	THIMMOREL_ERROR_POLICY = 16,
	/** Chunk 1 has no room for code. */
	THIMMOREL_ERROR_NO_ROOM = 17,
	/** The file length is not a multiple of 4, is under 1,540, or is above the slot's length. */
	THIMMOREL_ERROR_FILE_LENGTH = 18,
	/** The session is over or not ready for this call, the slot's length is not that at begin, or
	    the record is inconsistent. */
	THIMMOREL_ERROR_TURN = 19,
	/** The keys are not 32 * n bytes, or the string is over 255 bytes. */
	THIMMOREL_ERROR_FIELD_LENGTH = 20,
	/** The output is shorter than the header. */
	THIMMOREL_ERROR_OUTPUT_LENGTH = 21,
	/** The slot's length is not a multiple of 4,096 from 4,096 to 2,097,152. */
	THIMMOREL_ERROR_SLOT_LENGTH = 22,
	/** The slot's word that would be overwritten is not erased. */
	THIMMOREL_ERROR_NOT_ERASED = 23,
	/** The file's first word does not stand in the slot. */
	THIMMOREL_ERROR_NOT_LANDED = 27,
	/** A number does not fit its field of the header. */
	THIMMOREL_ERROR_FIELD_RANGE = 28
};

/** \brief The part of an image that a check's refusal is about. */
enum thimmorel_part {
	THIMMOREL_PART_NONE = 0,
	/** The vendor header, or the legacy header of the older model. */
	THIMMOREL_PART_VENDOR_HEADER = 1,
	/** The firmware header, the header of a loader, or the V2 header of the older model. */
	THIMMOREL_PART_FIRMWARE_HEADER = 2,
	THIMMOREL_PART_CODE = 3
};

/** \brief The phase of a session. */
enum thimmorel_phase {
	THIMMOREL_PHASE_OVER = 0,
	THIMMOREL_PHASE_OPEN = 1,
	/** The file is accepted, and its first word is to be stored and confirmed. */
	THIMMOREL_PHASE_ACCEPTED = 2
};

/** \brief An operation of the flash. */
enum thimmorel_operation_kind {
	THIMMOREL_OPERATION_NOTHING = 0,
	THIMMOREL_OPERATION_ERASE_PAGE = 1,
	THIMMOREL_OPERATION_STORE_WORD = 2
};

/** \brief The area that holds a loader. */
enum thimmorel_area {
	THIMMOREL_AREA_NONE = 0,
	/** The memory card. */
	THIMMOREL_AREA_CARD = 1,
	THIMMOREL_AREA_INTERNAL = 2
};

/** \brief What a check is given besides the bytes. */
struct thimmorel_inputs {
	/** The current time. */
	uint32_t time;
	/** How many keys must have signed the vendor header, no fewer and no more. */
	uint32_t m;
	/** How many keys there are for the vendor header. */
	uint32_t n;
	/** The chip's verdict on the vendor header's signature: 1 is yes, any other word no. */
	uint32_t vendor_verdict;
	/** The chip's verdict on the firmware header's signature: 1 is yes, any other word no. */
	uint32_t firmware_verdict;
};

/** \brief What the check of a loader, and the choice of one, is given besides the bytes. */
struct thimmorel_loader_inputs {
	/** The current time. */
	uint32_t time;
	/** How many keys must have signed a loader, no fewer and no more. */
	uint32_t m;
	/** How many keys there are for loaders. */
	uint32_t n;
	/** The chip's verdict on the signature of the card's loader: 1 is yes, any other word no. */
	uint32_t card_verdict;
	/** The chip's verdict on the signature of the internal loader: 1 is yes, any other word no. */
	uint32_t internal_verdict;
};

/** \brief What a check of the older model is given besides the bytes. */
struct thimmorel_older_inputs {
	/** The current time. */
	uint32_t time;
	/** How many keys the caller's key sheet has. */
	uint32_t keys;
	/** The chip's verdicts on the three signatures of the legacy header, in their order: 1 is yes,
	    any other word no. */
	uint32_t legacy_verdicts[3];
	/** Likewise on those of the V2 header. */
	uint32_t v2_verdicts[3];
};

/** \brief The answer of a check, a digest question, a choice or a close. It is always written. */
struct thimmorel_answer {
	/** One of `enum thimmorel_error`. */
	uint32_t number;
	/** One of `enum thimmorel_part`. It is 0 on success. */
	uint32_t part;
	/** The chunk, counted from 1, with the numbers 14 and 15. It is 0 otherwise. */
	uint32_t chunk;
};

/** \brief What an acceptance tells. */
struct thimmorel_image {
	/** The length v of the vendor header. It is 0 for a loader and for the older model. */
	uint32_t vendor_length;
	/** The length of the code. */
	uint32_t code_length;
	/** The version of the firmware or the loader, see THIMMOREL_FIRMWARE_VERSION(). */
	uint32_t version;
	/** The fix version, likewise. */
	uint32_t fix_version;
};

/** \brief A place in the bytes that were passed: where it starts, and how many bytes it has. */
struct thimmorel_span {
	uint64_t start;
	uint64_t length;
};

/** \brief The places of an image's parts. */
struct thimmorel_parts {
	struct thimmorel_span string;
	/** The picture area, up to the sigmask. */
	struct thimmorel_span picture;
	struct thimmorel_span code;
};

/** \brief The loader to run. It is always written. */
struct thimmorel_loader {
	/** One of `enum thimmorel_area`: the area that holds it. */
	uint64_t area;
	/** Its header and its code in that area. The place starts at 0. It is empty if there is no
	    loader to run. */
	struct thimmorel_span place;
};

/** \brief What the chip needs to verify a header's signature, beside the digest. */
struct thimmorel_signature {
	/** 1 byte. */
	struct thimmorel_span sigmask;
	/** 64 bytes. */
	struct thimmorel_span sig;
	/** For the firmware header the vendor's keys, 32 bytes each. For the vendor header empty: its
	    keys are the caller's own. */
	struct thimmorel_span keys;
	/** How many of these keys must sign, no fewer and no more, and how many there are. For the
	    vendor header both are 0: its policy is the caller's own. */
	uint64_t m;
	uint64_t n;
};

/** \brief How far the vendor is trusted. Each feature is 1 if it is active, and 0 if not. */
struct thimmorel_trust {
	/** How many seconds to wait. */
	uint32_t seconds;
	uint32_t red_background;
	uint32_t click_needed;
	uint32_t string_shown;
	uint32_t secret_allowed;
};

/** \brief The numbers of a vendor header. */
struct thimmorel_vendor_numbers {
	/** The last time at which the header is valid, or 0 for no expiry. */
	uint32_t expiry;
	/** Major and minor version, each at most 255. */
	uint32_t major;
	uint32_t minor;
	/** vsig_m and vsig_n: exactly m of the n keys must sign firmware. */
	uint32_t m;
	uint32_t n;
	/** See thimmorel_read_trust(). At most 65,535. */
	uint32_t vtrust;
	/** Which keys signed this header. At most 255. */
	uint32_t sigmask;
};

/** \brief The numbers of a firmware header. */
struct thimmorel_firmware_numbers {
	/** The length v of the vendor header that precedes this one. */
	uint32_t vendor_length;
	/** The last time at which the header is valid, or 0 for no expiry. */
	uint32_t expiry;
	/** The version, see THIMMOREL_FIRMWARE_VERSION(). */
	uint32_t version;
	/** The fix version, likewise. */
	uint32_t fix_version;
	/** Which of the vendor's keys signed this header. At most 255. */
	uint32_t sigmask;
};

/** \brief The record of an install. See "Installing" below. */
struct thimmorel_record {
	/** One of `enum thimmorel_phase`. */
	uint32_t phase;
	uint32_t slot_length;
	uint32_t file_length;
	/** Pages erased, of slot_length / 4,096. */
	uint32_t pages_erased;
	/** Bytes taken, of file_length. */
	uint32_t bytes_taken;
	/** Operations since begin. At Done they are slot_length / 4,096 + file_length / 4 + 1. */
	uint32_t operations;
	/** The first word of the file once it is complete, its first byte in the low 8 bits. */
	uint32_t first_word;
	/** The bytes taken of the word in progress, likewise. Its other bytes are left from before. */
	uint32_t current_word;
	/** Begin writes 0, every other call leaves them, and no answer depends on them. */
	uint32_t reserved[8];
};

/** \brief The operation of the flash that a call hands back. It is always written. */
struct thimmorel_operation {
	/** One of `enum thimmorel_operation_kind`. */
	uint32_t kind;
	/** Where the page or the word starts, in bytes from the slot's start. It is 0 for nothing. */
	uint32_t offset;
	/** The word to be stored, its first byte in the low 8 bits. It is 0 for the other kinds, and for
	    the store that the first erase plans. */
	uint32_t word;
};

/** \brief Two answers, one for each header. */
struct thimmorel_answers {
	struct thimmorel_answer vendor;
	struct thimmorel_answer firmware;
};

/** \brief Two digests, one for each header. */
struct thimmorel_digests {
	uint8_t vendor[32];
	uint8_t firmware[32];
};

/** \brief What the chip needs for each header. */
struct thimmorel_signatures {
	struct thimmorel_signature vendor;
	struct thimmorel_signature firmware;
};

/**
 * \brief Compute a BLAKE2s digest.
 *
 * The digest is that of RFC 7693 for these bytes, with no key and 32 bytes of output. The call
 * cannot fail, and takes slices of any length. It reads the bytes and does not change them. It
 * writes all 32 bytes of the digest, and nothing else.
 *
 * The digests of the older model are SHA-256 instead: see thimmorel_sha256().
 *
 * \param bytes    the bytes to digest.
 * \param length   the number of bytes.
 * \param digest   the buffer that receives the 32 bytes of the digest.
 */
void thimmorel_digest(const uint8_t *bytes, uint64_t length, uint8_t digest[32]);

/**
 * \brief Check an image that is a file: nothing may follow the code.
 *
 * The first step that fails gives the answer:
 *
 * | step | fails if | number | part |
 * |---|---|---|---|
 * | S1 | the bytes do not start with `TRZV` | 1 | 1 |
 * | S2 | m is 0, m is above n, or n is above 8 | 16 | 0 |
 * | S3 | there are fewer than 512 bytes | 2 | 1 |
 * | S4 | v is not a multiple of 512 from 512 to 65,536 | 3 | 1 |
 * | S5 | there are fewer than v bytes | 2 | 1 |
 * | S6 | vsig_m is 0, vsig_m is above vsig_n, or vsig_n is above 8 | 4 | 1 |
 * | S7 | keys and string leave no room for sigmask and sig | 5 | 1 |
 * | S8 | bytes 18 to 31, or those between string and picture, are not all zero | 6 | 1 |
 * | S9 | the vendor header's expiry is not 0, and `time` is above it | 7 | 1 |
 * | S10 | the sigmask names a key index of n or above, or does not name exactly m keys | 8 | 1 |
 * | S11 | `vendor_verdict` is not 1 | 9 | 1 |
 * | S12 | the bytes end before the firmware header does | 2 | 2 |
 * | S13 | the firmware header does not start with `TRZF` | 10 | 2 |
 * | S14 | it does not give its length as 1,024 | 11 | 2 |
 * | S15 | chunk 1 has no room for code; no v that passes S4 leads here | 17 | 2 |
 * | S16 | the code length is 0, not a multiple of 4, or above 2,097,152 - 1,024 - v | 12 | 2 |
 * | S17 | its bytes 24 to 31, or 544 to 958, are not all zero | 6 | 2 |
 * | S18 | its expiry is not 0, and `time` is above it | 7 | 2 |
 * | S19 | its sigmask names an index of vsig_n or above, or does not name exactly vsig_m keys | 8 | 2 |
 * | S20 | `firmware_verdict` is not 1 | 9 | 2 |
 * | S21 | the bytes end before the code does | 2 | 3 |
 * | S22 | bytes follow the code | 13 | 3 |
 * | S23 | the lowest chunk with a wrong hash holds code | 14 | 3 |
 * | S23 | that chunk holds no code, and its hash is not all zero | 15 | 3 |
 *
 * The bytes are not changed.
 *
 * \param bytes    the file.
 * \param length   the number of bytes.
 * \param inputs   the time, the key policy m of n for the vendor header, and the chip's verdicts.
 * \param answer   always written: the number, the part and the chunk.
 * \param image    written only on success: what the image's headers say.
 * \return 0 if the image is accepted, or the number of the step that fails.
 */
uint32_t thimmorel_check_file(const uint8_t *bytes, uint64_t length,
	const struct thimmorel_inputs *inputs, struct thimmorel_answer *answer,
	struct thimmorel_image *image);

/**
 * \brief Check an image that is in a slot: the bytes after the code must be erased.
 *
 * This is the check to make before the firmware is started. Arguments, answers and steps are those
 * of thimmorel_check_file(), except for S22: it fails if a byte after the code is not 255. It looks
 * at every such byte that is passed. The slot's length is not tested.
 */
uint32_t thimmorel_check_slot(const uint8_t *bytes, uint64_t length,
	const struct thimmorel_inputs *inputs, struct thimmorel_answer *answer,
	struct thimmorel_image *image);

/**
 * \brief Tell where the parts of a checked image are.
 *
 * The call follows thimmorel_check_file() or thimmorel_check_slot() of the same bytes and takes its
 * number. After a refusal all places are empty, and start at 0. The picture area runs up to the
 * sigmask.
 *
 * After a refusal, pass its number and not 0: such bytes have no parts. Whatever is passed, no part
 * reaches past the end of the bytes.
 *
 * \param bytes    the bytes that were checked.
 * \param length   the number of bytes.
 * \param number   what the check returned.
 * \param parts    always written: the string, the picture area and the code.
 */
void thimmorel_find_parts(const uint8_t *bytes, uint64_t length, uint32_t number,
	struct thimmorel_parts *parts);

/**
 * \brief Compute the digest that the vendor header's signature signs.
 *
 * It is the digest of all v bytes of the header, with the last 65 (sigmask and sig) taken as zero.
 * The header must pass S1 and S3 to S8 of thimmorel_check_file(). The first that fails gives the
 * answer: 1, 2, 3, 2, 4, 5 or 6, with part 1. No time, policy or verdict matters, and nothing after
 * the header is looked at. The bytes are not changed.
 *
 * \param bytes    the image, or its start.
 * \param length   the number of bytes.
 * \param answer   always written: the number and the part. The chunk is 0.
 * \param digest   written only on success: the 32 bytes of the digest.
 * \return 0, or the number of the step that fails.
 */
uint32_t thimmorel_vendor_digest(const uint8_t *bytes, uint64_t length,
	struct thimmorel_answer *answer, uint8_t digest[32]);

/**
 * \brief Compute the digest that the firmware header's signature signs.
 *
 * It is the digest of the 1,024 bytes of the header, with the last 65 taken as zero. Both headers
 * count: S1, S3 to S8 and then S12 to S17 must hold. The first that fails gives the answer: one of
 * thimmorel_vendor_digest(), or 2, 10, 11, 17, 12 or 6 with part 2. The code need not be present.
 *
 * \param bytes    the image, or its start.
 * \param length   the number of bytes.
 * \param answer   always written: the number and the part. The chunk is 0.
 * \param digest   written only on success: the 32 bytes of the digest.
 * \return 0, or the number of the step that fails.
 */
uint32_t thimmorel_firmware_digest(const uint8_t *bytes, uint64_t length,
	struct thimmorel_answer *answer, uint8_t digest[32]);

/**
 * \brief Tell where the vendor header's sigmask and signature are.
 *
 * Where thimmorel_vendor_digest() answers 0 for these bytes, sigmask and signature lie in them.
 * Otherwise all places are empty, and start at 0. Keys, m and n are empty and 0: the keys that
 * sign a vendor header, and how many must, are the caller's own.
 *
 * \param bytes       the image, or its start.
 * \param length      the number of bytes.
 * \param signature   always written.
 */
void thimmorel_find_vendor_signature(const uint8_t *bytes, uint64_t length,
	struct thimmorel_signature *signature);

/**
 * \brief Tell where the firmware header's sigmask and signature are, and the keys that sign it.
 *
 * Where thimmorel_firmware_digest() answers 0 for these bytes, sigmask, signature and keys lie in
 * them, and exactly m of these n keys must sign: 1 <= m <= n <= 8. Otherwise all places are empty,
 * and start at 0, and m and n are 0.
 *
 * \param bytes       the image, or its start.
 * \param length      the number of bytes.
 * \param signature   always written.
 */
void thimmorel_find_firmware_signature(const uint8_t *bytes, uint64_t length,
	struct thimmorel_signature *signature);

/**
 * \brief Read how far the vendor is trusted.
 *
 * A feature is active if its bit of vtrust is unset. Bits 0 to 3 add 1, 2, 4 and 8 seconds of
 * waiting; bit 4 gives a red background, bit 5 asks for a click, bit 6 shows the string, and bit 7
 * allows the pairing secret. Bits 8 to 15 have no meaning. The call is meant for bytes that a check
 * accepted. It cannot fail: a byte of vtrust past the end counts as 0, so that for too few bytes
 * every feature is told as active, the pairing secret among them.
 *
 * \param bytes    the image, or its start.
 * \param length   the number of bytes.
 * \param trust    always written.
 */
void thimmorel_read_trust(const uint8_t *bytes, uint64_t length, struct thimmorel_trust *trust);

/**
 * \brief Write a vendor header.
 *
 * Its length v is the least multiple of 512 that holds the fields; zeros follow the picture up to
 * the sigmask. The sigmask is not checked. Refusals, in order:
 *
 *  - 28 if major, minor or sigmask is above 255, or vtrust above 65,535;
 *
 *  - 4 if not 1 <= m <= n <= 8;
 *
 *  - 20 if the keys are not 32 * n bytes, or the string is over 255 bytes;
 *
 *  - 3 if v would be above 65,536;
 *
 *  - 21 if the output is shorter than v bytes.
 *
 * A whole picture area, given as the picture, gives the same v again.
 *
 * \param numbers          the numbers of the header.
 * \param keys             the keys, one after the other.
 * \param keys_length      the number of their bytes.
 * \param string           the string.
 * \param string_length    the number of its bytes.
 * \param picture          the picture, or a whole picture area.
 * \param picture_length   the number of its bytes.
 * \param sig              the signature of this header.
 * \param out              the output. On success its first v bytes are the header, and the bytes
 *                         past them are unchanged. After a refusal all are unchanged.
 * \param out_length       the number of its bytes.
 * \param written          written only on success: v.
 * \return 0, or the refusal.
 */
uint32_t thimmorel_write_vendor(const struct thimmorel_vendor_numbers *numbers,
	const uint8_t *keys, uint64_t keys_length, const uint8_t *string, uint64_t string_length,
	const uint8_t *picture, uint64_t picture_length, const uint8_t sig[64], uint8_t *out,
	uint64_t out_length, uint32_t *written);

/**
 * \brief Write a firmware header for code that will follow it.
 *
 * The sigmask is not checked. Refusals, in order:
 *
 *  - 28 if sigmask is above 255;
 *
 *  - 3 if vendor_length is not a multiple of 512 from 512 to 65,536;
 *
 *  - 12 if the code's length is 0, not a multiple of 4, or above 2,097,152 - 1,024 - vendor_length;
 *
 *  - 21 if the output is shorter than 1,024 bytes.
 *
 * \param numbers       the numbers of the header.
 * \param code          the code. It is not changed.
 * \param code_length   the number of its bytes.
 * \param sig           the signature of this header.
 * \param out           the output. On success its first 1,024 bytes are the header, and the bytes
 *                      past them are unchanged. After a refusal all are unchanged. Where the code
 *                      already follows the header, pass 1,024 and not the rest of the file: the
 *                      output must not overlap the code.
 * \param out_length    the number of its bytes.
 * \param written       written only on success: 1,024.
 * \return 0, or the refusal.
 */
uint32_t thimmorel_write_firmware(const struct thimmorel_firmware_numbers *numbers,
	const uint8_t *code, uint64_t code_length, const uint8_t sig[64], uint8_t *out,
	uint64_t out_length, uint32_t *written);

/**
 * # Installing
 *
 * A slot is a multiple of 4,096 bytes, from 4,096 to 2,097,152. The flash has two operations: erase
 * one page of 4,096 bytes to 255, and store one aligned word of 4 bytes, over an erased one or, if
 * it is zero, over any. Each call makes at most one operation, or hands at most one back. A power cut
 * may fall between two calls or inside an operation: a store then happens wholly or not at all, and
 * an erase may leave each word of its page as it was or erased.
 *
 * A session has these steps:
 *
 *  1. thimmorel_begin(), once.
 *
 *  2. Erase, until all pages are erased: `pages_erased` of the record is then slot_length / 4,096.
 *     The first call stores zero in the slot's first word, and each further call erases a page, so
 *     it takes one call more than the slot has pages.
 *
 *  3. Fill, until all bytes of the file are taken: `bytes_taken` of the record is then its
 *     `file_length`, and a fill takes 0 bytes, however long the piece is.
 *
 *  4. thimmorel_ask() for the digests and thimmorel_find_signatures() for what else the chip needs;
 *     the chip then gives its verdicts.
 *
 *  5. Close, with the verdicts.
 *
 * The first word of the file stays in the record until it is stored, as the last operation of all.
 * From the first erase until then, the slot starts with a word that is zero or erased, wherever the
 * power is cut, and thimmorel_check_slot() refuses it with 1. Done means that the slot holds the
 * file, that the bytes after it are erased, and that thimmorel_check_slot() accepts it with the same
 * inputs.
 *
 * ## Two ways to write the slot
 *
 * *A slot in memory*: thimmorel_erase(), thimmorel_fill() and thimmorel_close() write the slot
 * themselves. A close that returns 0 is Done.
 *
 * *Flash that a driver writes*: thimmorel_plan_erase(), thimmorel_plan_fill() and
 * thimmorel_plan_close() only read the slot, and hand back the operation. The board makes it and
 * goes on. A plan_close that returns 0 is not Done: the file is accepted, and its first word is the
 * operation. Once that is made, thimmorel_confirm() reads the slot, and its 0 is Done. No call
 * returns 0 for Done before the first word stands in the slot.
 *
 * The first operation of a session is a store of zero in the first word, whatever stands there. It is
 * the one store that needs no erased word, so a driver must not test for one there.
 *
 * If an operation fails, or the power does, drop the record and begin again. The calls see the slot
 * and not the driver: fill and close refuse a word that they would store over and that is not
 * erased, and thimmorel_confirm() reads the first word. A driver that reports success for an
 * operation that it did not make can otherwise go unnoticed. So read each operation back, as the
 * Rust installer of this library does, or ask thimmorel_check_slot() once more after Done.
 *
 * `examples/install.c` is a whole install with a driver that can fail.
 *
 * ## The record
 *
 * A session is kept in a `struct thimmorel_record` that the caller owns. Pass to each call what the
 * last one left, unchanged. It may be moved or stored between two calls. Its numbers tell how far
 * the install is.
 *
 * Any words are allowed and get an answer. A call answers 19
 *
 *  - if the phase is not open, or for thimmorel_confirm() not accepted;
 *
 *  - if the slot's length is not that at begin;
 *
 *  - if the record is inconsistent: more pages erased than the slot has, or bytes taken while pages
 *    are still to be erased; more bytes taken than the file has; a slot or file length that begin
 *    refuses; an operation count that is not 1 for the zero of the first erase, plus the pages
 *    erased, plus the words stored, which are all complete words except the first. With no page
 *    erased it may also be 0: then nothing was done. In the accepted phase all pages are erased and
 *    all bytes taken, and the first word counts too;
 *
 *  - if the session is not ready for the call, or past it, as each call says below.
 */

/**
 * \brief Begin to install a file of a given length.
 *
 * Only the slot's length matters: its bytes are neither read nor changed. Refusals, in order:
 *
 *  - 22 if the slot's length is not a multiple of 4,096 from 4,096 to 2,097,152;
 *
 *  - 18 if the file's length is not a multiple of 4, is under 1,540, or is above the slot's length.
 *
 * \param slot          the slot.
 * \param slot_length   the number of its bytes.
 * \param file_length   the number of bytes of the file to come.
 * \param record        always written: on success an open session with nothing done, after a
 *                      refusal a session that is over, all words 0.
 * \return 0, or the refusal.
 */
uint32_t thimmorel_begin(const uint8_t *slot, uint64_t slot_length, uint64_t file_length,
	struct thimmorel_record *record);

/**
 * \brief Store zero in the first word of a slot in memory; from the second call on, erase the next
 * page, from the first up.
 *
 * Refusal: 19, also once all pages are erased.
 *
 * \param record        the session. On success it counts one more operation and, from the second
 *                      call on, one more page. After a refusal it is unchanged.
 * \param slot          the slot. On success the bytes of its first word are 0, or those of the next
 *                      page are 255. After a refusal it is unchanged.
 * \param slot_length   the number of its bytes.
 * \return 0, or 19.
 */
uint32_t thimmorel_erase(struct thimmorel_record *record, uint8_t *slot, uint64_t slot_length);

/**
 * \brief Give the next bytes of the file to a slot in memory.
 *
 * The call takes bytes from the start of the piece until the current word is complete, the piece
 * ends or the file is complete, so 0 to 4 bytes. A completed word is stored at its place, except
 * the first, which the record keeps. Call again with the rest of the piece. If the piece is empty,
 * or all bytes of the file are taken, the call takes 0 bytes and changes nothing. Refusals, in
 * order:
 *
 *  - 19, also while pages are still to be erased;
 *
 *  - 23 if the call would store a word and the slot's word at its place is not four bytes of 255.
 *
 * \param record         the session. On success it counts the bytes taken, and one operation if a
 *                       word was stored. After a refusal it is unchanged.
 * \param piece          the next bytes of the file. They are not changed.
 * \param piece_length   the number of bytes in the piece.
 * \param slot           the slot. After a refusal it is unchanged.
 * \param slot_length    the number of its bytes.
 * \param taken          written only on success: how many bytes of the piece were taken.
 * \return 0, or the refusal.
 */
uint32_t thimmorel_fill(struct thimmorel_record *record, const uint8_t *piece,
	uint64_t piece_length, uint8_t *slot, uint64_t slot_length, uint32_t *taken);

/**
 * \brief Compute the two digests that the signatures of the new file sign.
 *
 * The call answers as thimmorel_vendor_digest() and thimmorel_firmware_digest() do for the file:
 * the slot's bytes up to the file's length, with the first word from the record. The chip can then
 * give the verdicts for the close. Record and slot are not changed.
 *
 * Refusal: 19, also until all bytes of the file are taken. If a digest is refused, `answers` says
 * so, and the call still returns 0.
 *
 * \param record        the session.
 * \param slot          the slot.
 * \param slot_length   the number of its bytes.
 * \param answers       always written: the answer for each digest. If the call returns 19, both
 *                      numbers are 19, and part and chunk are 0.
 * \param digests       written only on success. A digest that is refused is all zero.
 * \return 0, or 19.
 */
uint32_t thimmorel_ask(const struct thimmorel_record *record, const uint8_t *slot,
	uint64_t slot_length, struct thimmorel_answers *answers, struct thimmorel_digests *digests);

/**
 * \brief Tell where the signatures of the new file are in the slot, and the keys.
 *
 * The call tells for each header what thimmorel_find_vendor_signature() and
 * thimmorel_find_firmware_signature() tell for the file that thimmorel_ask() asks about. A place is
 * empty where that header's digest is refused, and all are where thimmorel_ask() returns 19. No
 * place takes in the slot's first word. Record and slot are not changed.
 *
 * \param record        the session.
 * \param slot          the slot.
 * \param slot_length   the number of its bytes.
 * \param signatures    always written.
 */
void thimmorel_find_signatures(const struct thimmorel_record *record, const uint8_t *slot,
	uint64_t slot_length, struct thimmorel_signatures *signatures);

/**
 * \brief Check the new file and, if it is accepted, finish the install in a slot in memory.
 *
 * The check is thimmorel_check_file() of the file: the slot's bytes up to the file's length, with
 * the first word from the record. If it accepts, the first word is stored, the session is over, and
 * the answer is 0, Done: thimmorel_check_slot() with the same inputs then accepts the slot.
 * Refusals, in order:
 *
 *  - 19, also until all bytes of the file are taken. The session is unchanged;
 *
 *  - 23 if the slot's first word is not four bytes of 255. The session is unchanged;
 *
 *  - the check's refusal. The slot is unchanged, and the session is over.
 *
 * \param record        the session. If the check ran, the phase becomes THIMMOREL_PHASE_OVER, and
 *                      at Done the session counts one more operation. Nothing else in it changes.
 * \param slot          the slot. At Done its first word is the file's. After a refusal it is
 *                      unchanged.
 * \param slot_length   the number of its bytes.
 * \param inputs        the time, the key policy m of n for the vendor header, and the chip's
 *                      verdicts.
 * \param answer        always written: the number, and the part and the chunk of the check's
 *                      refusal, or 0 and 0.
 * \return 0, which is Done, or the refusal.
 */
uint32_t thimmorel_close(struct thimmorel_record *record, uint8_t *slot, uint64_t slot_length,
	const struct thimmorel_inputs *inputs, struct thimmorel_answer *answer);

/**
 * \brief Plan the store of zero in the first word; from the second call on, plan the erase of the
 * next page, from the first up.
 *
 * The record and the return value are those of thimmorel_erase(), and making the operation has the
 * effect of that call on the slot. Make it before the next call. The store needs no erased word.
 *
 * \param record        the session.
 * \param slot          the slot. It is only read.
 * \param slot_length   the number of its bytes.
 * \param operation     always written: the word to store, which is 0 at offset 0, or the page to
 *                      erase; nothing after a refusal.
 * \return 0, or 19.
 */
uint32_t thimmorel_plan_erase(struct thimmorel_record *record, const uint8_t *slot,
	uint64_t slot_length, struct thimmorel_operation *operation);

/**
 * \brief Take the next bytes of the file, and plan the store of a word that they complete.
 *
 * The record, the return value and `taken` are those of thimmorel_fill(), and making the operation
 * has the effect of that call on the slot. Make it before the next call.
 *
 * \param record         the session.
 * \param piece          the next bytes of the file.
 * \param piece_length   the number of bytes in the piece.
 * \param slot           the slot. It is only read.
 * \param slot_length    the number of its bytes.
 * \param taken          written only on success: how many bytes of the piece were taken.
 * \param operation      always written: the word to store; or nothing, if no word is complete, if
 *                       it is the first word, or after a refusal.
 * \return 0, or the refusal.
 */
uint32_t thimmorel_plan_fill(struct thimmorel_record *record, const uint8_t *piece,
	uint64_t piece_length, const uint8_t *slot, uint64_t slot_length, uint32_t *taken,
	struct thimmorel_operation *operation);

/**
 * \brief Check the new file and, if it is accepted, plan the store of its first word.
 *
 * The check and the refusals are those of thimmorel_close(). A return value of 0 is not Done: it
 * says that the file is accepted. The phase is then THIMMOREL_PHASE_ACCEPTED, and the record counts
 * the operation. Make it, and call thimmorel_confirm().
 *
 * \param record        the session. A refusal leaves it as thimmorel_close() does.
 * \param slot          the slot. It is only read.
 * \param slot_length   the number of its bytes.
 * \param inputs        the time, the key policy m of n for the vendor header, and the chip's
 *                      verdicts.
 * \param answer        always written: the number, and the part and the chunk of the check's
 *                      refusal, or 0 and 0.
 * \param operation     always written: the first word to store, or nothing after a refusal.
 * \return 0 if the file is accepted, or the refusal.
 */
uint32_t thimmorel_plan_close(struct thimmorel_record *record, const uint8_t *slot,
	uint64_t slot_length, const struct thimmorel_inputs *inputs, struct thimmorel_answer *answer,
	struct thimmorel_operation *operation);

/**
 * \brief Finish an install whose file is accepted, once its first word stands in the slot.
 *
 * The call reads the slot's first word. Refusals, in order:
 *
 *  - 19 if no accepted file waits for it: the phase is another, or the record is inconsistent;
 *
 *  - 27 if the slot does not start with the file's first word: the operation of
 *    thimmorel_plan_close() was not made, or failed.
 *
 * \param record        the session. On success its phase becomes THIMMOREL_PHASE_OVER, and nothing
 *                      else changes. After a refusal it is unchanged.
 * \param slot          the slot. It is only read.
 * \param slot_length   the number of its bytes.
 * \return 0, which is Done, or the refusal.
 */
uint32_t thimmorel_confirm(struct thimmorel_record *record, const uint8_t *slot,
	uint64_t slot_length);

/**
 * # Loaders
 *
 * A loader is the second stage of the boot code. The signer has one in its internal area, and field
 * staff can bring another on a memory card. A loader stands at the start of its area:
 *
 *  - A header of 1,024 bytes. It is laid out as the firmware header, but starts with `TRZB`.
 *
 *  - Code of 4 to 130,048 bytes, a multiple of 4. All of it is in chunk 1: hash 1 is its digest,
 *    and hashes 2 to 16 are all zero.
 *
 *  - Bytes up to the end of the area that are all 0 on a card, and all 255 in the internal area.
 *    There may be none.
 *
 * There is no vendor header, and v counts as 0. The key policy m of n is the caller's own, as for a
 * vendor header. Both areas have the same time and policy, and a verdict each.
 *
 * The length of an area is not tested. Every byte that is passed and follows the code is looked at,
 * and bytes that are not passed are not judged. THIMMOREL_LOADER_MAX bytes hold every loader, so
 * pass at least as many of a card, or all that there are. If there is no card, pass no bytes. Read a
 * card into memory first, and run what was checked: the card itself can change.
 *
 * ## The choice
 *
 * A loader is chosen in two steps:
 *
 *  1. thimmorel_loader_digest() for each area. The chip then gives its verdict on the signature.
 *     Take it as no for an area whose digest is refused.
 *
 *  2. thimmorel_choose_loader() with both areas and verdicts. It tells where the loader to run is:
 *     on the card if that is accepted, otherwise in the internal area if that is accepted. If
 *     neither is, it gives the refusal of the internal area.
 *
 * With an accepted card the internal area is not checked. To know that it is good as well, ask
 * thimmorel_check_internal().
 *
 * ## The steps
 *
 * The first step that fails gives the answer of a check:
 *
 * | step | fails if | number | part |
 * |---|---|---|---|
 * | S1 | the bytes do not start with `TRZB` | 1 | 2 |
 * | S2 | m is 0, m is above n, or n is above 8 | 16 | 0 |
 * | | there are fewer than 1,024 bytes | 2 | 2 |
 * | S14 | the header does not give its length as 1,024 | 11 | 2 |
 * | S16 | the code length is 0, not a multiple of 4, or above 130,048 | 12 | 2 |
 * | S17 | bytes 24 to 31, or 544 to 958, are not all zero | 6 | 2 |
 * | S18 | the expiry is not 0, and `time` is above it | 7 | 2 |
 * | S19 | the sigmask names a key index of n or above, or does not name exactly m keys | 8 | 2 |
 * | S20 | the verdict on the area's loader is not 1 | 9 | 2 |
 * | S21 | the bytes end before the code does | 2 | 3 |
 * | S22 | a byte after the code is not 0 on a card, or not 255 in the internal area | 13 | 3 |
 * | S23 | hash 1 is not the digest of the code | 14 | 3 |
 * | S23 | one of the hashes 2 to 16 is not all zero | 15 | 3 |
 *
 * The chunk is 1 with 14, and with 15 the lowest whose hash is not all zero.
 */

/**
 * \brief Check the loader on a memory card: the bytes after its code must be 0.
 *
 * The bytes are not changed. The code of an accepted loader is from 1,024 on, `code_length` bytes;
 * thimmorel_find_parts() is not for loaders.
 *
 * \param bytes    the card.
 * \param length   the number of bytes.
 * \param inputs   the time, the key policy m of n for loaders, and `card_verdict`. The other
 *                 verdict does not matter.
 * \param answer   always written: the number, the part and the chunk.
 * \param image    written only on success: what the header says. `vendor_length` is 0.
 * \return 0 if the loader is accepted, or the number of the step that fails.
 */
uint32_t thimmorel_check_card(const uint8_t *bytes, uint64_t length,
	const struct thimmorel_loader_inputs *inputs, struct thimmorel_answer *answer,
	struct thimmorel_image *image);

/**
 * \brief Check the loader in the internal area: the bytes after its code must be 255.
 *
 * Arguments and answers are those of thimmorel_check_card(), with the internal area in place of the
 * card, and `internal_verdict` in place of `card_verdict`.
 */
uint32_t thimmorel_check_internal(const uint8_t *bytes, uint64_t length,
	const struct thimmorel_loader_inputs *inputs, struct thimmorel_answer *answer,
	struct thimmorel_image *image);

/**
 * \brief Compute the digest that a loader's signature signs, on a card or in the internal area.
 *
 * It is the digest of the 1,024 bytes of the header, with the last 65 taken as zero. S1, the length
 * of 1,024 bytes, S14, S16 and S17 must hold. The first that fails gives the answer: 1, 2, 11, 12
 * or 6, with part 2. No time, policy or verdict matters, and nothing after the header is looked at,
 * so the code need not be present. The bytes are not changed.
 *
 * The chip also needs the sigmask, which is the byte at 959, and the signature, which is the 64
 * bytes from 960 on. No call tells these places, since they are the same for every loader. The keys
 * that sign a loader, and how many must, are the caller's own.
 *
 * \param bytes    the area, or its start.
 * \param length   the number of bytes.
 * \param answer   always written: the number and the part. The chunk is 0.
 * \param digest   written only on success: the 32 bytes of the digest.
 * \return 0, or the number of the step that fails.
 */
uint32_t thimmorel_loader_digest(const uint8_t *bytes, uint64_t length,
	struct thimmorel_answer *answer, uint8_t digest[32]);

/**
 * \brief Choose the loader to run.
 *
 * It is the card's if thimmorel_check_card() accepts the card. Otherwise it is the internal one if
 * thimmorel_check_internal() accepts the internal area. Otherwise there is none, and the answer is
 * the refusal of the internal area. The refusal of a card is not told: ask thimmorel_check_card().
 * The versions of the two loaders are not compared. Neither area is changed.
 *
 * The area that is told is the argument that holds the loader, so the two must not be swapped.
 *
 * \param card              the card.
 * \param card_length       the number of its bytes.
 * \param internal          the internal area.
 * \param internal_length   the number of its bytes.
 * \param inputs            the time, the key policy m of n for loaders, and both verdicts.
 * \param answer            always written: the number, the part and the chunk. All are 0 if there
 *                          is a loader to run.
 * \param loader            always written: the area that holds the loader, and the place of header
 *                          and code in it. The code starts 1,024 bytes into the place, and ends
 *                          with it. If there is no loader to run, the area is THIMMOREL_AREA_NONE
 *                          and the place empty.
 * \return 0 if there is a loader to run, or the number of the internal area's refusal.
 */
uint32_t thimmorel_choose_loader(const uint8_t *card, uint64_t card_length,
	const uint8_t *internal, uint64_t internal_length,
	const struct thimmorel_loader_inputs *inputs, struct thimmorel_answer *answer,
	struct thimmorel_loader *loader);

/**
 * # The older model
 *
 * The older single-chip model has an image of its own, in two forms. The caller names the form by
 * the call:
 *
 *  - *V2*: a V2 header of 1,024 bytes, and code.
 *
 *  - *The pair*: a legacy header of 256 bytes, then a V2 header and code. Official releases have
 *    this form, for boot code that knows the legacy header alone.
 *
 * There is no vendor header, and v is told as 0. All digests of this family are SHA-256, and no
 * other image of this library has those: thimmorel_digest() is BLAKE2s, thimmorel_sha256() is
 * SHA-256.
 *
 * The legacy header:
 *
 * | offset | length | field |
 * |---|---|---|
 * | 0 | 4 | `TRZR` |
 * | 4 | 4 | length of V2 header and code: a multiple of 4, from 1,028 to 2,096,896 |
 * | 8 | 3 | the key index of each signature |
 * | 11 | 53 | zero |
 * | 64 | 3 * 64 | signatures |
 *
 * The V2 header, which has no sigmask. Its offsets count from its own start, which is 256 in the
 * pair:
 *
 * | offset | length | field |
 * |---|---|---|
 * | 0 | 4 | `TRZF` |
 * | 4 | 4 | its length, 1,024 |
 * | 8 | 4 | expiry; 0 means never |
 * | 12 | 4 | code length: a multiple of 4, from 4 to 2,095,872 |
 * | 16 | 4 | version: major, minor, patch, build |
 * | 20 | 4 | fix version, likewise |
 * | 24 | 8 | zero |
 * | 32 | 16 * 32 | hashes 1 to 16 |
 * | 544 | 3 * 64 | signatures |
 * | 736 | 3 | the key index of each signature |
 * | 739 | 285 | zero |
 *
 * In the pair, the code length is exactly 1,024 less than the length in the legacy header.
 *
 * Chunk 1 has room for 129,792 bytes of code in both forms, chunks 2 to 16 for 131,072 each. Hash k
 * is the digest of the code in chunk k, or all zero if chunk k holds none.
 *
 * ## Keys and verdicts
 *
 * Each header has three signatures, by three different keys of the caller's key sheet. The sheet
 * has 3 to 255 keys, and is the same for both headers. A key index is the number of a key in it,
 * counted from 1. All three signatures must be good: there is a verdict for each.
 *
 *  - The signatures of the V2 header sign the digest of its 1,024 bytes, with the signatures and
 *    the key indexes, which are bytes 544 to 738, taken as zero.
 *
 *  - The signatures of the legacy header sign the digest of the bytes behind it, as many as the
 *    length in it says: the V2 header as it is, its signatures and key indexes among it, and the
 *    code.
 *
 * An image is checked in three steps:
 *
 *  1. The digest question of each header: thimmorel_v2_digest() for V2; for the pair
 *     thimmorel_pair_legacy_digest() and thimmorel_pair_v2_digest().
 *
 *  2. For each header and each of its three signatures, the chip verifies the signature over that
 *     header's digest, by the key that its index names. If the index is 0 or above the number of
 *     keys, or if the digest is refused, take the verdict as no. So a pair that is cut short is
 *     refused with 9 under part 1, since the digest of its legacy header is refused.
 *
 *  3. The check of the form, with the verdicts.
 *
 * ## The steps
 *
 * The first step that fails gives the answer of a check. Those of part 1 are made for the pair
 * alone:
 *
 * | fails if | number | part |
 * |---|---|---|
 * | `keys` is not 3 to 255 | 16 | 0 |
 * | the bytes do not start with `TRZR` | 1 | 1 |
 * | there are fewer than 256 bytes | 2 | 1 |
 * | the length in the legacy header is not a multiple of 4 from 1,028 to 2,096,896 | 12 | 1 |
 * | bytes 11 to 63 of the legacy header are not all zero | 6 | 1 |
 * | one of its key indexes is 0 or above `keys`, or two are equal | 8 | 1 |
 * | one of `legacy_verdicts` is not 1 | 9 | 1 |
 * | the V2 header does not start with `TRZF`, or fewer than 4 bytes of it are there | 10 | 2 |
 * | the bytes end before the V2 header does | 2 | 2 |
 * | it does not give its length as 1,024 | 11 | 2 |
 * | the code length is not a multiple of 4 from 4 to 2,095,872 | 12 | 2 |
 * | in the pair, it is not exactly 1,024 less than the length in the legacy header | 12 | 2 |
 * | bytes 24 to 31, or 739 to 1,023, of the V2 header are not all zero | 6 | 2 |
 * | its expiry is not 0, and `time` is above it | 7 | 2 |
 * | one of its key indexes is 0 or above `keys`, or two are equal | 8 | 2 |
 * | one of `v2_verdicts` is not 1 | 9 | 2 |
 * | the bytes end before the code does | 2 | 3 |
 * | bytes follow the code in a file; a byte after the code is not 255 in a slot | 13 | 3 |
 * | the lowest chunk with a wrong hash holds code | 14 | 3 |
 * | that chunk holds no code, and its hash is not all zero | 15 | 3 |
 */

/**
 * \brief Compute a SHA-256 digest.
 *
 * The digest is that of FIPS 180-4 for these bytes. The call cannot fail, and takes slices of any
 * length. It reads the bytes and does not change them. It writes all 32 bytes of the digest, and
 * nothing else.
 *
 * \param bytes    the bytes to digest.
 * \param length   the number of bytes.
 * \param digest   the buffer that receives the 32 bytes of the digest.
 */
void thimmorel_sha256(const uint8_t *bytes, uint64_t length, uint8_t digest[32]);

/**
 * \brief Check a V2 header and its code that are a file: nothing may follow the code.
 *
 * The steps are those above without part 1. The bytes are not changed.
 *
 * \param bytes    the file.
 * \param length   the number of bytes.
 * \param inputs   the time, the number of keys, and `v2_verdicts`. The verdicts on the legacy
 *                 header do not matter.
 * \param answer   always written: the number, the part and the chunk.
 * \param image    written only on success: what the V2 header says. `vendor_length` is 0.
 * \return 0 if the image is accepted, or the number of the step that fails.
 */
uint32_t thimmorel_check_v2_file(const uint8_t *bytes, uint64_t length,
	const struct thimmorel_older_inputs *inputs, struct thimmorel_answer *answer,
	struct thimmorel_image *image);

/**
 * \brief Check a V2 header and its code that are in a slot: the bytes after the code must be
 * erased.
 *
 * Arguments, answers and steps are those of thimmorel_check_v2_file(), except that a byte after the
 * code may be 255. Every such byte that is passed is looked at. The slot's length is not tested.
 */
uint32_t thimmorel_check_v2_slot(const uint8_t *bytes, uint64_t length,
	const struct thimmorel_older_inputs *inputs, struct thimmorel_answer *answer,
	struct thimmorel_image *image);

/**
 * \brief Check a pair of headers and the code that are a file: nothing may follow the code.
 *
 * The steps are all of those above. A legacy header with no V2 header behind it is refused. The
 * bytes are not changed.
 *
 * \param bytes    the file.
 * \param length   the number of bytes.
 * \param inputs   the time, the number of keys, and all six verdicts.
 * \param answer   always written: the number, the part and the chunk.
 * \param image    written only on success: what the V2 header says. `code_length` is that of the V2
 *                 header, and `vendor_length` is 0.
 * \return 0 if the image is accepted, or the number of the step that fails.
 */
uint32_t thimmorel_check_pair_file(const uint8_t *bytes, uint64_t length,
	const struct thimmorel_older_inputs *inputs, struct thimmorel_answer *answer,
	struct thimmorel_image *image);

/**
 * \brief Check a pair of headers and the code that are in a slot: the bytes after the code must be
 * erased.
 *
 * Arguments, answers and steps are those of thimmorel_check_pair_file(), except that a byte after
 * the code may be 255. Every such byte that is passed is looked at. The slot's length is not
 * tested.
 */
uint32_t thimmorel_check_pair_slot(const uint8_t *bytes, uint64_t length,
	const struct thimmorel_older_inputs *inputs, struct thimmorel_answer *answer,
	struct thimmorel_image *image);

/**
 * \brief Tell where the code behind a checked V2 header is.
 *
 * The call follows thimmorel_check_v2_file() or thimmorel_check_v2_slot() of the same bytes and
 * takes its number. After a refusal the place is empty, and starts at 0. thimmorel_find_parts() is
 * not for the older model.
 *
 * After a refusal, pass its number and not 0: such bytes have no code. Whatever is passed, the
 * place does not reach past the end of the bytes.
 *
 * \param bytes    the bytes that were checked.
 * \param length   the number of bytes.
 * \param number   what the check returned.
 * \param code     always written: the code.
 */
void thimmorel_find_v2_code(const uint8_t *bytes, uint64_t length, uint32_t number,
	struct thimmorel_span *code);

/**
 * \brief Tell where the code behind a checked pair of headers is.
 *
 * Arguments and answers are those of thimmorel_find_v2_code(), after thimmorel_check_pair_file() or
 * thimmorel_check_pair_slot().
 */
void thimmorel_find_pair_code(const uint8_t *bytes, uint64_t length, uint32_t number,
	struct thimmorel_span *code);

/**
 * \brief Compute the digest that the signatures of a V2 header sign, where it stands by itself.
 *
 * It is the SHA-256 digest of the 1,024 bytes of the header, with bytes 544 to 738 taken as zero.
 * The header's steps through the zero bytes must hold. The first that fails gives the answer: 10,
 * 2, 11, 12 or 6, with part 2. No key sheet, time, key index or verdict matters, and nothing after
 * the header is looked at, so the code need not be present. The bytes are not changed.
 *
 * The chip also needs the signatures, at THIMMOREL_V2_SIGNATURES, and their key indexes, at
 * THIMMOREL_V2_INDEXES.
 *
 * \param bytes    the image, or its start.
 * \param length   the number of bytes.
 * \param answer   always written: the number and the part. The chunk is 0.
 * \param digest   written only on success: the 32 bytes of the digest.
 * \return 0, or the number of the step that fails.
 */
uint32_t thimmorel_v2_digest(const uint8_t *bytes, uint64_t length,
	struct thimmorel_answer *answer, uint8_t digest[32]);

/**
 * \brief Compute the digest that the signatures of the V2 header in a pair sign.
 *
 * It is that of thimmorel_v2_digest() for the bytes from 256 on. Both headers count: the steps of
 * the legacy header through its zero bytes must hold, then those of the V2 header through its own.
 * The first that fails gives the answer: 1, 2, 12 or 6 with part 1, or 10, 2, 11, 12 or 6 with part
 * 2. The code need not be present. In the bytes of the pair, signatures and key indexes are 256
 * bytes further on than in a V2 header by itself.
 *
 * \param bytes    the image, or its start.
 * \param length   the number of bytes.
 * \param answer   always written: the number and the part. The chunk is 0.
 * \param digest   written only on success: the 32 bytes of the digest.
 * \return 0, or the number of the step that fails.
 */
uint32_t thimmorel_pair_v2_digest(const uint8_t *bytes, uint64_t length,
	struct thimmorel_answer *answer, uint8_t digest[32]);

/**
 * \brief Compute the digest that the signatures of the legacy header in a pair sign.
 *
 * It is the SHA-256 digest of the bytes from 256 on, as many as the length in the legacy
 * header says, and as they are. The steps of the legacy header through its zero bytes must hold, and
 * these bytes must be present. The first that fails gives the answer: 1, 2, 12 or 6 with part 1, or
 * 2 with part 3. The V2 header is not judged. No key sheet, time, key index or verdict matters,
 * and nothing after these bytes is looked at. The bytes are not changed.
 *
 * The chip also needs the signatures, at THIMMOREL_LEGACY_SIGNATURES, and their key indexes, at
 * THIMMOREL_LEGACY_INDEXES.
 *
 * \param bytes    the image.
 * \param length   the number of bytes.
 * \param answer   always written: the number and the part. The chunk is 0.
 * \param digest   written only on success: the 32 bytes of the digest.
 * \return 0, or the number of the step that fails.
 */
uint32_t thimmorel_pair_legacy_digest(const uint8_t *bytes, uint64_t length,
	struct thimmorel_answer *answer, uint8_t digest[32]);

#ifdef __cplusplus
}
#endif

#endif
