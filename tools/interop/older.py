"""The older model, which trezorlib calls Trezor One. Images built there are checked here, V2 by itself
and the pair, as a file and in a slot; fields, digests and signatures must be the same on both sides.
Then faults that neither side accepts, and the differences that docs/SPECIFICATION.md intends, as in
interop.py. No call here writes such an image. It assumes trezorlib 0.12.4. The first answer that is
not the expected one ends it with status 1.

The hashes of the code follow another rule there: chunks of 64 KiB, the first of them short by the V2
header alone, and the last one that is used filled up with bytes 255 before it is hashed. The document
and this library have chunks of 128 KiB, the first of them short by both headers, and no filling. So
these images are built with trezorlib's calculate_code_hashes, told the document's sizes, and its
validate refuses their hashes after it has accepted their signatures; code of exactly 64,512 bytes,
one full chunk there, has the same hashes by both rules, and is accepted by both."""

import hashlib
import sys
from dataclasses import dataclass, replace
from random import Random

import ecdsa
from construct import ConstructError, Container
from trezorlib import firmware

from exchange import LATEST, compare_fields, draw_code, same
from interop import BAD_DATA, NO_PARSE, NOW, OK, changed, refused, show
from sides import (BYTES, SLICE, WORD, Answer, CodeFields, Differs, Image, Span, ask, check,
                   code_there, exported, taken, validate, words)

LEGACY = 256
HEADER = 1_024
LONGEST_CODE = 2_095_872
FULL_THERE = 65_536 - HEADER
FIRST_ROOM = 131_072 - HEADER - LEGACY
CODE_LENGTHS = (4, 8, 60, 64, 68, 4_096, FULL_THERE - 4, FULL_THERE, FULL_THERE + 4,
                FIRST_ROOM - 4, FIRST_ROOM, FIRST_ROOM + 4, FIRST_ROOM + 131_072,
                FIRST_ROOM + 131_076, LONGEST_CODE - 4, LONGEST_CODE)

UNSIGNED = 3 * [bytes(64)]
FEW_KEYS = "refused by validate: Not enough distinct signatures (found 2, need 3)"
NO_KEYS = "refused by validate: "


def bad_key(slot):
    return f"refused by validate: Unknown key in slot {slot}"


def bad_signature(slot):
    return f"refused by validate: Invalid signature in slot {slot}"


@dataclass
class Fields(CodeFields):
    """What an image is made from. The indexes say which keys sign the header, from 1."""

    indexes: list
    legacy_indexes: list

    def __str__(self):
        return f"image of the older model with code of {len(self.code)}"


def draw(random, code_length):
    return Fields(**draw_code(random, code_length), indexes=random.sample(range(1, 6), 3),
                  legacy_indexes=random.sample(range(1, 6), 3))


# Keys and signatures. trezorlib looks the keys up in its own sheet of five.

SHEET = [ecdsa.SigningKey.from_string(bytes([i]) * 32, ecdsa.SECP256k1) for i in range(1, 7)]
firmware.V1_BOOTLOADER_KEYS = [b"\4" + key.verifying_key.to_string() for key in SHEET[:5]]


def sign(digest, indexes):
    """A signature by the key at each index, and zeros for an index that names none."""
    return [SHEET[index - 1].sign_digest_deterministic(digest, hashlib.sha256)
            if 1 <= index <= len(SHEET) else bytes(64) for index in indexes]


def is_signed(digest, index, signature):
    if digest is None or not 1 <= index <= len(SHEET):
        return False
    try:
        return SHEET[index - 1].verifying_key.verify_digest(signature, digest)
    except ecdsa.BadSignatureError:
        return False


# Here

OlderInputs = words("time keys legacy_1 legacy_2 legacy_3 v2_1 v2_2 v2_3")

CHECK = SLICE + [OlderInputs, Answer, Image]
QUESTION = SLICE + [Answer, BYTES]
check_v2_file = exported("check_v2_file", CHECK)
check_v2_slot = exported("check_v2_slot", CHECK)
check_pair_file = exported("check_pair_file", CHECK)
check_pair_slot = exported("check_pair_slot", CHECK)
v2_digest = exported("v2_digest", QUESTION)
pair_v2_digest = exported("pair_v2_digest", QUESTION)
pair_legacy_digest = exported("pair_legacy_digest", QUESTION)
find_v2_code = exported("find_v2_code", SLICE + [WORD, Span], None)
find_pair_code = exported("find_pair_code", SLICE + [WORD, Span], None)


def verdicts(digest, header, indexes, signatures):
    """Of a signature chip, on the three signatures of a header, whose fields stand at these places."""
    header = header.ljust(HEADER, b"\0")
    return [is_signed(digest, header[indexes + i], header[signatures + 64 * i:][:64])
            for i in range(3)]


def chip_v2(file):
    """The six verdicts on a V2 image. There is no legacy header, so its verdicts are no."""
    return [False] * 3 + verdicts(ask(v2_digest, file), file, 0x2E0, 0x220)


def chip_pair(file):
    return (verdicts(ask(pair_legacy_digest, file), file, 8, 64)
            + verdicts(ask(pair_v2_digest, file), file[LEGACY:], 0x2E0, 0x220))


def check_older(call, data, time, given, keys=5):
    return check(call, data, time, given, OlderInputs, (keys,))


def code_of(call, file):
    span = Span()
    call(file, len(file), 0, span)
    return taken(file, span)


# There

def hashes_of(code):
    """By the document's rule: trezorlib's function, told where chunk 1 starts."""
    return firmware.calculate_code_hashes(code, LEGACY + HEADER, hashlib.sha256)


def hashes_there(code):
    """By trezorlib's rule for these images."""
    return firmware.calculate_code_hashes(code, HEADER, hashlib.sha256,
                                          firmware.ONEV2_CHUNK_SIZE, b"\xff")


def structure(fields, signatures=UNSIGNED):
    """The V2 image as trezorlib's structure."""
    return code_there(firmware.HeaderType.FIRMWARE, fields, hashes_of(fields.code),
                      signatures=signatures, indexes=fields.indexes)


def built(fields, **changes):
    """The V2 image by trezorlib with these changes of the header, signed over trezorlib's digest."""
    image = structure(fields)
    image.header.update(changes)
    image.header.v1_signatures = sign(firmware.digest_onev2(image), fields.indexes)
    return firmware.FirmwareImage.build(image)


def legacy_structure(fields, image, signatures=UNSIGNED):
    """The pair as trezorlib's structure."""
    return Container(magic=b"TRZR", code_length=len(image), key_indexes=fields.legacy_indexes,
                     flags=Container(restore_storage=False), signatures=signatures, code=image)


def paired(fields, image):
    """A V2 image behind a legacy header by trezorlib, signed over trezorlib's digest."""
    pair = legacy_structure(fields, image)
    pair.embedded_onev2 = None
    pair.signatures = sign(firmware.digest_onev1(pair), fields.legacy_indexes)
    return firmware.LegacyFirmware.build(pair)


# The exchange

def compare(fields, file, pair):
    """All that the two sides tell of an image and of its pair, with its fields and with each other."""
    there = OK if len(fields.code) == FULL_THERE else BAD_DATA
    same("trezorlib's answer", validate(file), there)
    same("trezorlib's answer to the pair", validate(pair), there)
    version, image = firmware.parse(file)
    legacy_version, legacy = firmware.parse(pair)
    signatures = sign(firmware.digest_onev2(image), fields.indexes)
    legacy_signatures = sign(firmware.digest_onev1(legacy), fields.legacy_indexes)
    compare_fields("V2", structure(fields, signatures), image)
    compare_fields("V2 in the pair", structure(fields, signatures), legacy.embedded_onev2)
    compare_fields("pair", legacy_structure(fields, file, legacy_signatures), legacy)

    same("V2 digest", ask(v2_digest, file), firmware.digest(version, image))
    same("V2 digest in the pair", ask(pair_v2_digest, pair),
         firmware.digest(firmware.FirmwareFormat.TREZOR_ONE_V2, legacy.embedded_onev2))
    same("legacy digest", ask(pair_legacy_digest, pair), firmware.digest(legacy_version, legacy))
    same("V2 image built again there", firmware.FirmwareImage.build(image), file)
    same("pair built again there", firmware.LegacyFirmware.build(legacy), pair)
    same("code here", code_of(find_v2_code, file), fields.code)
    same("code of the pair here", code_of(find_pair_code, pair), fields.code)
    compare_answers(fields, file, pair)


def compare_answers(fields, file, pair):
    accepted = OK, [0, len(fields.code)] + fields.versions()
    last_good_time = fields.expiry or LATEST
    for file_call, slot_call, data, given in (
            (check_v2_file, check_v2_slot, file, chip_v2(file)),
            (check_pair_file, check_pair_slot, pair, chip_pair(pair))):
        same("file check", check_older(file_call, data, last_good_time, given), accepted)
        same("slot check", check_older(slot_call, data, last_good_time, given), accepted)
        same("check of a longer slot",
             check_older(slot_call, data + 4_096 * b"\xff", last_good_time, given), accepted)


def exchange(seeds):
    """Builds every image there and compares it. Tells their number."""
    number = 0
    for seed in seeds:
        random = Random(seed)
        for code_length in CODE_LENGTHS:
            fields = draw(random, code_length)
            number += 1
            try:
                image = built(fields)
                compare(fields, image, paired(fields, image))
            except (Differs, ConstructError) as found:
                raise Differs(f"image {number}, {fields}: {found}") from found
    return number


# Cases: a line, the answers of both sides, and the answers that they must give. The code has 64,512
# bytes where the line says nothing else, so that the hashes are right on both sides.

def answers(*files):
    """V2 images as they are, in a file and in a slot."""
    return [(check_older(call, file, NOW, chip_v2(file))[0], validate(file))
            for file in files for call in (check_v2_file, check_v2_slot)]


def pair_answers(*files):
    return [(check_older(call, file, NOW, chip_pair(file))[0], validate(file))
            for file in files for call in (check_pair_file, check_pair_slot)]


def plain():
    fields = draw(Random(0), FULL_THERE)
    return replace(fields, expiry=0, version=bytes([1, 8, 0, 0]), indexes=[1, 3, 5],
                   legacy_indexes=[2, 4, 5])


def with_indexes(fields, *indexes):
    return built(replace(fields, indexes=list(indexes)))


def with_legacy_indexes(fields, *indexes):
    return paired(replace(fields, legacy_indexes=list(indexes)), built(fields))


def accepted_by_neither(fields):
    good = built(fields)
    pair = paired(fields, good)
    unused_hash = hashes_of(fields.code)[:15] + [bytes(31) + b"\1"]
    return [
        ("V2, unknown magic", answers(*changed(good, 0)), refused(10, 2), NO_PARSE),
        ("V2, header cut short", answers(good[:1_023]), refused(2, 2), NO_PARSE),
        ("V2, length of the header changed", answers(*changed(good, 4)), refused(11, 2),
         bad_signature(0)),
        ("V2, an index above the sheet", answers(with_indexes(fields, 6, 3, 5)), refused(8, 2),
         bad_key(0)),
        ("V2, an index of 0, and one named twice",
         answers(with_indexes(fields, 1, 0, 5), with_indexes(fields, 1, 3, 3)), refused(8, 2),
         FEW_KEYS),
        ("V2, no indexes", answers(with_indexes(fields, 0, 0, 0)), refused(8, 2), NO_KEYS),
        ("V2, first signature changed", answers(*changed(good, 0x220)), refused(9, 2),
         bad_signature(0)),
        ("V2, last signature changed", answers(*changed(good, 0x2A0)), refused(9, 2),
         bad_signature(2)),
        ("V2, header changed", answers(*changed(good, 17)), refused(9, 2), bad_signature(0)),
        ("V2, code cut short", answers(good[:-1]), refused(2, 3), NO_PARSE),
        ("V2, another byte after the code", answers(good + b"\1"), refused(13, 3), NO_PARSE),
        ("V2, code changed", answers(*changed(good, len(good) - 1)), refused(14, 3, 1), BAD_DATA),
        ("V2, hash of an unused chunk not zero", answers(built(fields, hashes=unused_hash)),
         refused(15, 3, 16), BAD_DATA),
        ("pair, unknown magic", pair_answers(*changed(pair, 0)), refused(1, 1), NO_PARSE),
        ("pair, legacy header cut short", pair_answers(pair[:255]), refused(2, 1), NO_PARSE),
        ("pair, a legacy index above the sheet",
         pair_answers(with_legacy_indexes(fields, 2, 6, 5)), refused(8, 1), bad_key(1)),
        ("pair, a legacy index of 0, and one named twice",
         pair_answers(with_legacy_indexes(fields, 0, 4, 5), with_legacy_indexes(fields, 2, 4, 2)),
         refused(8, 1), FEW_KEYS),
        ("pair, second legacy signature changed", pair_answers(*changed(pair, 0x80)),
         refused(9, 1), bad_signature(1)),
        ("pair, cut short, so that the legacy signatures are over nothing",
         pair_answers(pair[:LEGACY + 1_023], pair[:-1]), refused(9, 1), NO_PARSE),
        ("pair, V2 header or code changed",
         pair_answers(*changed(pair, LEGACY + 17, len(pair) - 1)), refused(9, 1),
         bad_signature(0)),
        ("pair, a V2 index above the sheet",
         pair_answers(paired(fields, with_indexes(fields, 1, 3, 6))), refused(8, 2), bad_key(2)),
        ("pair, V2 signature changed", pair_answers(paired(fields, changed(good, 0x260)[0])),
         refused(9, 2), bad_signature(1)),
        ("pair, code changed and signed again",
         pair_answers(paired(fields, changed(good, len(good) - 1)[0])), refused(14, 3, 1),
         BAD_DATA),
        ("pair, another byte after the code", pair_answers(pair + b"\1"), refused(13, 3),
         NO_PARSE),
    ]


def refused_here(fields):
    good = built(fields)
    pair = paired(fields, good)
    short = replace(fields, code=bytes(100))
    padded = built(short, hashes=hashes_there(short.code))
    none, six, long = (replace(fields, code=bytes(length)) for length in (0, 6, LONGEST_CODE + 4))
    return [
        ("V2, hashes by trezorlib's rule", answers(padded), refused(14, 3, 1), OK),
        ("pair, hashes by trezorlib's rule", pair_answers(paired(short, padded)),
         refused(14, 3, 1), OK),
        ("V2, length of the header not 1,024", answers(built(fields, header_len=1_028)),
         refused(11, 2), OK),
        ("V2, no code", answers(built(none)), refused(12, 2), OK),
        ("V2, code length not a multiple of 4", answers(built(six, hashes=hashes_there(six.code))),
         refused(12, 2), OK),
        ("V2, code past chunk 16", answers(built(long, hashes=hashes_there(long.code))),
         refused(12, 2), OK),
        ("V2, bytes 24 to 31 not zero", answers(*changed(good, 24, 31)), refused(6, 2), OK),
        ("V2, bytes 739 to 958 not zero", answers(*changed(good, 739, 958)), refused(6, 2), OK),
        ("V2, sigmask and sig of the other models not zero",
         answers(*changed(good, 959, 960, 1_023)), refused(6, 2), OK),
        ("V2, expired", answers(built(replace(fields, expiry=1))), refused(7, 2), OK),
        ("pair, flags not zero", pair_answers(*changed(pair, 11)), refused(6, 1), OK),
        ("pair, bytes 12 to 63 not zero", pair_answers(*changed(pair, 12, 63)), refused(6, 1), OK),
        ("pair, code without a V2 header", pair_answers(paired(fields, fields.code)),
         refused(10, 2), OK),
        ("pair, a word of code more than V2 says", pair_answers(paired(fields, good + bytes(4))),
         refused(12, 2), OK),
        ("pair, too short or too long for a V2 image",
         pair_answers(*(paired(fields, length * b"\xff") for length in (1_024, 2_096_900))),
         refused(12, 1), OK),
    ]


def refused_there(fields):
    """A slot is longer than its image, and the key sheet and the verdicts are inputs here."""
    good = built(fields)
    pair = paired(fields, good)
    erased = 64 * b"\xff"
    sixth = with_indexes(fields, 6, 3, 5)
    unsigned = good[:0x220] + bytes(192) + good[0x2E0:]
    ours = built(replace(fields, code=bytes(100)))
    return [
        ("V2, hashes by the document's rule", answers(ours), OK, BAD_DATA),
        ("V2, erased bytes after the code in a slot",
         [(check_older(check_v2_slot, good + erased, NOW, chip_v2(good))[0],
           validate(good + erased))], OK, NO_PARSE),
        ("pair, erased bytes after the code in a slot",
         [(check_older(check_pair_slot, pair + erased, NOW, chip_pair(pair))[0],
           validate(pair + erased))], OK, NO_PARSE),
        ("V2, a sheet of 6 keys",
         [(check_older(check_v2_file, sixth, NOW, chip_v2(sixth), 6)[0], validate(sixth))], OK,
         bad_key(0)),
        ("V2, signatures of zeros and the verdicts yes",
         [(check_older(check_v2_file, unsigned, NOW, 6 * [True])[0], validate(unsigned))], OK,
         bad_signature(0)),
    ]


def main():
    number = exchange(seeds=(9, 10))
    fields = plain()
    print("Images of the older model accepted by neither:")
    faults = show(accepted_by_neither(fields))
    print("Different, as the specification intends:")
    differences = show(refused_here(fields) + refused_there(fields))
    print(f"interop: {number} images of the older model and their pairs built there and accepted"
          f" here, {faults} faults accepted by neither, {differences} differences as intended")


if __name__ == "__main__":
    try:
        main()
    except (Differs, ConstructError) as found:
        sys.exit(" ".join(f"interop: {found}".split()))
